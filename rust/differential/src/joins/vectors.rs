//! Pairs of files with their joinings, stored for programs that have no generators.
//!
//! `joins.bin` has a record for each pair; each number has four bytes, highest first:
//!
//! | part | what |
//! |---|---|
//! | lengths | of the first file and of the second |
//! | stored lengths | of the first file and of the second: a file is stored without the bytes of 0 at its end, so that one of many opening operations is short |
//! | files | the stored bytes of the first, then of the second |
//! | room | bytes of the lent buffer, each 0xA5 before the call |
//! | answer | the file that is refused (0 none, 1 the first, 2 the second), number, place, and the result's length |
//! | result | its bytes; none for a refusal |
//!
//! [`stored::END`] in the place of the first length ends the list.

use super::pairs::{Kind, Pairs};
use super::{Outcome, join};
use crate::model::{MAX_POOLS, Operation, PCM, Pool, Stream, WAVE};
use crate::{examples, stored};
use sgub::Piece;
use std::collections::HashSet;

/// The longest file of a drawn pair.
const LONGEST_DRAWN: usize = 1024;

/// The longest file that is stored, and the longest room that is lent.
pub const LONGEST: [usize; 2] = [560_000, 65_536];

/// A pair, the room that is lent, and the answer, on which library and definition agree.
#[derive(Clone, Debug, PartialEq, Eq)]
pub struct Vector {
    /// The files.
    pub files: [Vec<u8>; 2],
    /// Bytes of the lent buffer.
    pub room: usize,
    /// The file that is refused: 0 none, 1 the first, 2 the second.
    pub file: u32,
    /// The refusal's number and place; 0 and 0 for a result.
    pub refusal: [u32; 2],
    /// The result; empty for a refusal.
    pub result: Vec<u8>,
}

/// So many vectors of a seed, the chosen pairs first, then pairs of each kind in turn. Each joined pair comes with room of its size,
/// with more, or, as refusal 24, with a byte less.
///
/// # Errors
/// Where library and definition differ, or the original does not play a result as its pieces.
pub fn choose(count: usize, seed: u64) -> Result<Vec<Vector>, String> {
    let mut vectors = Vec::with_capacity(count);
    for (pair, rooms) in chosen() {
        for less in rooms {
            vectors.push(vector(pair.clone(), *less)?);
        }
    }
    let mut known = HashSet::new();
    let mut pairs = Pairs::new(seed);
    while vectors.len() < count {
        let pair = pairs.pair(Kind::TURNS[known.len() % Kind::TURNS.len()]);
        let is_short = pair.iter().all(|file| file.len() <= LONGEST_DRAWN);
        if is_short && known.insert(pair.clone()) {
            let less = [0, -1, 1, -60][known.len() % 4];
            vectors.push(vector(pair, less)?);
        }
    }
    Ok(vectors)
}

/// Pairs, and the rooms that each comes with, by what they are less than the result.
type Chosen = ([Vec<u8>; 2], &'static [isize]);

/// Each of the examples before and behind the empty one and the tune, among them a file for each of the refusals 1 to 20; files that
/// joining must tell apart beside each other; and what only two files together are refused with.
fn chosen() -> Vec<Chosen> {
    let mut pairs: Vec<Chosen> = Vec::new();
    let [empty, tune] = ["empty-2", "tune-2"].map(examples::example);
    for example in examples::all() {
        let rooms: &[isize] = if example.file[..].get(4) == Some(&2) {
            &[-9, 0, 1]
        } else {
            &[0]
        };
        pairs.push(([example.file.clone(), tune.clone()], rooms));
        pairs.push(([empty.clone(), example.file], &[0]));
    }
    let pieces = pieces();
    for first in &pieces {
        for second in &pieces {
            let pair = [first, second].map(Stream::to_bytes);
            pairs.push((pair, &[-1]));
        }
    }
    pairs.extend(refused());
    pairs
}

/// Short files that differ in one thing each: an opening, a repeat, a pool that is copied in the opening or in a frame, two pools.
fn pieces() -> Vec<Stream> {
    let write = Operation::write(0, 0x803, 0xC0);
    let pool = |value| Pool {
        kind: 2,
        payload: vec![value; 3],
    };
    let copy = |pool| Operation::copy(PCM, 0xF_FFFE, pool, 1, 2);
    let wave = Pool {
        kind: 1,
        payload: vec![0x40; WAVE as usize],
    };
    let none = Stream::empty_frame(2);
    vec![
        Stream {
            opening: vec![write, write],
            ..none.clone()
        },
        Stream {
            repeat: true,
            frames: vec![vec![write], Vec::new(), vec![write, write]],
            ..none.clone()
        },
        Stream {
            pools: vec![pool(1)],
            opening: vec![copy(0), write],
            frames: vec![vec![copy(0)], vec![write, copy(0)]],
            ..none.clone()
        },
        Stream {
            repeat: true,
            pools: vec![pool(2), wave],
            opening: vec![
                Operation::copy(1, 0x700, 1, 0, WAVE),
                Operation::fill(PCM, 0, 0x10_0000, 0),
            ],
            frames: vec![vec![copy(0), write]],
            ..none
        },
    ]
}

/// Refused by 29, by 30 and by files before them; and the greatest opening and frame that are not, where the room is too short.
fn refused() -> Vec<Chosen> {
    let nothing = Operation::write(0, 0, 0);
    let of = |opening, frame| Stream {
        opening: vec![nothing; opening],
        frames: vec![vec![nothing; frame]],
        ..Stream::empty_frame(2)
    };
    let short = Stream::empty_frame(2).to_bytes();
    let beside = |opening, frame| [short.clone(), of(opening, frame).to_bytes()];
    let mut pairs: Vec<Chosen> = vec![
        (beside(65_536, 0), &[0]),
        (beside(1, 65_535), &[0]),
        (beside(65_535, 0), &[340_000, 393_200]),
        (beside(0, 65_535), &[393_200]),
        (beside(1, 65_534), &[393_200]),
    ];
    // A long opening of the first is none of the second's.
    let [short, long] = beside(65_536, 0);
    pairs.push(([long.clone(), short], &[393_200]));
    let refused = examples::example("refused-17");
    pairs.push(([refused.clone(), long.clone()], &[0]));
    pairs.push(([long.clone(), refused], &[0]));
    pairs.push(([examples::example("bank-3"), long], &[0]));
    let half = MAX_POOLS / 2;
    let many = [half, half + 1].map(|count| {
        let pool = Pool {
            kind: 2,
            payload: vec![0],
        };
        let stream = Stream {
            pools: vec![pool; count],
            ..Stream::empty_frame(2)
        };
        stream.to_bytes()
    });
    pairs.push((many, &[0]));
    pairs
}

fn vector(files: [Vec<u8>; 2], less: isize) -> Result<Vector, String> {
    let [first, second] = &files;
    let outcome = join([first, second], &mut Vec::new())
        .map_err(|text| format!("{text}: {} and {} bytes", first.len(), second.len()))?;
    let (room, file, refusal) = match outcome {
        Outcome::Joined(joined) => {
            let refusal = if less > 0 { [24, 0] } else { [0, 0] };
            (joined.size.saturating_add_signed(-less), 0, refusal)
        }
        Outcome::Refused(refused, _) => {
            let file = match refused.piece {
                None => 0,
                Some(Piece::First) => 1,
                Some(Piece::Second) => 2,
            };
            let refusal = refused.refusal;
            (100, file, [refusal.number, refusal.place as u32])
        }
    };
    let result = match refusal {
        [0, _] => sgub::join_to_vec(first, second).map_err(|refused| refused.to_string())?,
        _ => Vec::new(),
    };
    assert!(first.len().max(second.len()) <= LONGEST[0] && room <= LONGEST[1]);
    Ok(Vector {
        files,
        room,
        file,
        refusal,
        result,
    })
}

/// The stored form.
pub fn to_bytes(vectors: &[Vector]) -> Vec<u8> {
    let mut bytes = Vec::new();
    for vector in vectors {
        let files = vector.files.each_ref().map(|file| without_end(file));
        for lengths in [
            vector.files.each_ref().map(Vec::len),
            files.map(<[u8]>::len),
        ] {
            stored::put(&mut bytes, &lengths.map(|length| length as u32));
        }
        bytes.extend(files.concat());
        let [room, size] = [vector.room, vector.result.len()].map(|number| number as u32);
        let [number, place] = vector.refusal;
        stored::put(&mut bytes, &[room, vector.file, number, place, size]);
        bytes.extend(&vector.result);
    }
    stored::put(&mut bytes, &[stored::END]);
    bytes
}

/// A file without the bytes of 0 at its end.
fn without_end(file: &[u8]) -> &[u8] {
    let last = file.iter().rposition(|byte| *byte != 0);
    &file[..last.map_or(0, |at| at + 1)]
}
