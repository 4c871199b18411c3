//! Files with their indexes, stored for programs that have no generators.
//!
//! `indexes.bin` is a list with the form of `repacks.bin`. Numbers have four bytes, highest first. For each file:
//!
//! | bytes | |
//! |---|---|
//! | 4 | length of the file, at most 65,536 |
//! | that | the file |
//! | 4 | room: bytes of the lent buffer, at most 65,536, which are 0xA5 each before the call |
//! | 4 | number of the refusal, 0 for an index |
//! | 4 | its place, 0 for an index |
//! | 4 | length of the index, 0 for a refusal |
//! | that | the index, which stands at the buffer's start; the bytes behind it stay as they were |
//!
//! The length 0xFFFFFFFF ends the list. The indexes are made of the places that the original's reader reaches; the refusals 1 to 20 are
//! the library's check's, held against the original's message, and 24 comes where the room is a byte less than the index.

pub use crate::lent::{Vector, to_bytes};

use super::{by_original, index};
use crate::generators::shapes::Shape;
use crate::generators::{Choice, Family, Generator};
use crate::lent::LONGEST;
use crate::model::{Operation, Stream, weight};
use crate::{examples, sheet};
use std::collections::HashSet;

/// The longest of the drawn files.
const LONGEST_DRAWN: usize = 2048;

/// Files with more writes in one pass are not stored: the original plays them for their places.
const MOST_WRITES: u64 = 1 << 20;

/// So many vectors of a seed, the chosen files first. Each index comes with room of its size, with more, or, as refusal 24, with a
/// byte less; that of a chosen file with each of them.
///
/// # Errors
/// Where library and original differ.
pub fn choose(count: usize, seed: u64) -> Result<Vec<Vector>, String> {
    let mut vectors = Vec::with_capacity(count);
    for file in chosen() {
        for less in rooms(&file) {
            vectors.push(vector(&file, *less)?);
        }
    }
    let mut known = HashSet::new();
    let mut frames = Generator::new(
        seed,
        Choice {
            shape: Some(Shape::ManyFrames),
            ..Choice::of(Family::Valid)
        },
    );
    let mut any = Generator::new(seed, Choice::of(Family::Valid));
    // Files of any version with something at or beside a limit of the sheet: the refusals 1 to 20.
    let mut others = Generator::new(seed, Choice::ANY);
    while vectors.len() < count {
        let file = match vectors.len() % 4 {
            0 => others.next_file(),
            1 => any.next_file(),
            _ => frames.next_file(),
        };
        let is_played = sgub::check(file).is_err() || weight::writes(file) <= MOST_WRITES;
        if file.len() <= LONGEST_DRAWN && is_played && known.insert(file.to_vec()) {
            let less = [0, -1, 1, -60][known.len() % 4];
            vectors.push(vector(file, less)?);
        }
    }
    Ok(vectors)
}

/// The rooms that a chosen file comes with, each by what it is less than the index. A refused file needs no more than one, and a long
/// one is not stored again and again.
fn rooms(file: &[u8]) -> &'static [isize] {
    match sgub::check(file) {
        Ok(_) if file.len() <= LONGEST_DRAWN => &[-9, 0, 1],
        _ => &[0],
    }
}

/// What an index must tell apart: the sheet's examples and those of examples/, among them a file for each of the refusals 1 to 20; in
/// each version 1, 63, 64, 65, 128 and 129 frames, empty ones and ones that grow; and as many frames as fit.
fn chosen() -> Vec<Vec<u8>> {
    let mut files: Vec<Vec<u8>> = sheet::rows().into_iter().map(|row| row.file).collect();
    files.extend(examples::all().into_iter().map(|example| example.file));
    for version in 1..=4 {
        for count in [1, 63, 64, 65, 128, 129] {
            files.push(of_frames(version, count, |_| 0));
            files.push(of_frames(version, count, |frame| frame % 4));
        }
    }
    files.push(of_frames(1, (LONGEST - 20) / 2, |_| 0));
    files.push(of_frames(4, (LONGEST - 48) / 2, |_| 0));
    files
}

/// A file with so many frames, each with so many WRITEs; every second such file repeats.
fn of_frames(version: u8, count: usize, writes: impl Fn(usize) -> usize) -> Vec<u8> {
    let frame = |frame| vec![Operation::write(0, 0x803, frame as u8); writes(frame)];
    let stream = Stream {
        repeat: count % 2 == 1,
        frames: (0..count).map(frame).collect(),
        ..Stream::empty_frame(version)
    };
    stream.to_bytes()
}

fn vector(file: &[u8], less: isize) -> Result<Vector, String> {
    let outcome =
        index(file, &mut Vec::new()).map_err(|text| format!("{text}: {} bytes", file.len()))?;
    let result = || by_original(file).expect("the original accepts it above");
    Ok(Vector::new(file, outcome, less, result))
}
