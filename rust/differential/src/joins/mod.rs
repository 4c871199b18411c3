//! The library's joining against a definition over values, and the joined file against its two pieces, which the original plays.

mod counts;
pub mod definition;
pub mod large;
pub mod limits;
pub mod listening;
pub mod pairs;
pub mod vectors;

pub use counts::Counts;

use crate::model::{Operation, Stream, weight};
use crate::{lent, oracle};
use listening::Played;
use sgub::{Header, Piece, Refusal, RefusedJoin};

/// Pairs with more writes in one pass are not played: the original collects a vsync's in memory.
const MOST_WRITES: u64 = 1 << 18;

/// Pairs with more frames are not played.
const MOST_FRAMES: usize = 20_000;

/// What joining a pair came to, on both sides.
#[derive(Clone, Copy, Debug, PartialEq, Eq)]
pub enum Outcome {
    /// The pair is joined.
    Joined(Joined),
    /// It is refused; and whether another refusal comes behind this one.
    Refused(RefusedJoin, bool),
}

/// A pair that is joined.
#[derive(Clone, Copy, Debug, PartialEq, Eq)]
pub struct Joined {
    /// Bytes of the result.
    pub size: usize,
    /// Whether each file repeats.
    pub repeats: [bool; 2],
    /// Whether each file has an opening.
    pub opens: [bool; 2],
    /// Operations of the second file's opening and first frame.
    pub operations: usize,
    /// Pools of both files.
    pub pools: usize,
    /// Whether the second file has a COPY whose pool gets another number.
    pub renumbers: bool,
    /// What the original played of it; `None` where that would be too much.
    pub played: Option<Played>,
}

/// The outcome of the library, or what it does otherwise. The memory of `buffer` is used again.
///
/// Which refusal from 1 to 20 applies to a file is the library's check to say, which [`verdicts`](crate::verdicts) holds against the
/// original. All else is the definition's.
///
/// # Errors
/// What is not the same.
pub fn join(files: [&[u8]; 2], buffer: &mut Vec<u8>) -> Result<Outcome, String> {
    let [first, second] = files;
    let call = |lent: &mut [u8]| sgub::join(first, second, lent);
    let rooms = [0, 100, first.len() + second.len()];
    if let Some((refused, is_last)) = refused_alone(files) {
        lent::hold_refusal(call, refused, &rooms, buffer)?;
        return Ok(Outcome::Refused(refused, !is_last));
    }
    let streams = [read(first)?, read(second)?];
    let numbers = definition::numbers(&streams[0], &streams[1]);
    if let Some(number) = numbers.first() {
        let refused = together(*number);
        lent::hold_refusal(call, refused, &rooms, buffer)?;
        return Ok(Outcome::Refused(refused, numbers.len() > 1));
    }
    let mut joined = seen(&streams);
    let [one, two] = streams;
    let result = definition::joined(one, two).to_bytes();
    joined.size = definition::size(files.map(<[u8]>::len));
    if result.len() != joined.size {
        return Err(format!("{} bytes, by the definition", result.len()));
    }
    lent::hold_result(call, &result, together(24), buffer)?;
    if sgub::join_to_vec(first, second).as_ref() != Ok(&result) {
        return Err(String::from("in memory of its own the library has another"));
    }
    joined.played = play(&result, files)?;
    Ok(Outcome::Joined(joined))
}

/// The first refusal of one of the files, and whether the other has none.
fn refused_alone(files: [&[u8]; 2]) -> Option<(RefusedJoin, bool)> {
    let [first, second] = files.map(refusal);
    let (piece, refusal) = match (first, second) {
        (Some(refusal), _) => (Piece::First, refusal),
        (None, Some(refusal)) => (Piece::Second, refusal),
        (None, None) => return None,
    };
    let piece = Some(piece);
    let is_last = first.is_none() || second.is_none();
    Some((RefusedJoin { piece, refusal }, is_last))
}

fn refusal(file: &[u8]) -> Option<Refusal> {
    match sgub::check(file) {
        Err(refusal) => Some(refusal),
        Ok(Header { version: 2, .. }) => None,
        Ok(_) => Some(together(21).refusal),
    }
}

/// A refusal without place that names no file.
fn together(number: u32) -> RefusedJoin {
    let refusal = Refusal { number, place: 0 };
    let piece = None;
    RefusedJoin { piece, refusal }
}

/// The stream of a file. It is the file: written again it has the same bytes.
fn read(file: &[u8]) -> Result<Stream, String> {
    let stream = Stream::read_version_2(file);
    match stream.to_bytes() == file {
        true => Ok(stream),
        false => Err(String::from("the model writes a file otherwise")),
    }
}

/// What the two files have that is to be seen.
fn seen([first, second]: &[Stream; 2]) -> Joined {
    let mut operations = second.opening.iter().chain(second.frames.iter().flatten());
    let copies = operations.any(|operation| matches!(operation, Operation::Copy { .. }));
    Joined {
        size: 0,
        repeats: [first, second].map(|stream| stream.repeat),
        opens: [first, second].map(|stream| !stream.opening.is_empty()),
        operations: second.opening.len() + second.frames[0].len(),
        pools: first.pools.len() + second.pools.len(),
        renumbers: copies && !first.pools.is_empty(),
        played: None,
    }
}

/// The original accepts the joined file, and plays it as its pieces.
fn play(joined: &[u8], files: [&[u8]; 2]) -> Result<Option<Played>, String> {
    let told = oracle::judge(joined).map_err(|message| format!("original {message:?}"))?;
    let frames = told.accepted().frame_count as usize;
    if weight::writes(joined) > MOST_WRITES || frames > MOST_FRAMES {
        return Ok(None);
    }
    listening::hold(joined, files).map(Some)
}
