//! Pitches, stored for programs that have no floating point.
//!
//! `pitches.bin` is a list of pairs. For each:
//!
//! | bytes | |
//! |---|---|
//! | 1 | note |
//! | 1 | shift, as a signed byte |
//! | 2 | pitch, highest byte first; 0 where the pair is refused, since no pitch is 0 |
//!
//! 0xFFFFFFFF ends the list; as a pair it would be a refused one with a pitch. All pairs that have a pitch are there. Of the others those
//! whose shift is one beside the range or at an end of its type, and those whose note is 128, 129 or 255.

use super::{by_original, pairs};
use crate::stored::{END, put};

/// The stored pairs.
pub fn choose() -> impl Iterator<Item = (u8, i8)> {
    pairs().filter(|(note, semitones)| {
        by_original(*note, *semitones).is_ok()
            || [128, 129, u8::MAX].contains(note)
            || [i8::MIN, -49, 49, i8::MAX].contains(semitones)
    })
}

/// The list, with the original's pitches.
///
/// # Panics
/// If a pitch is 0, which stands for a refusal.
pub fn to_bytes() -> Vec<u8> {
    let mut bytes = Vec::new();
    for (note, semitones) in choose() {
        let pitch = by_original(note, semitones);
        assert_ne!(pitch, Ok(0));
        bytes.extend([note, semitones as u8]);
        bytes.extend(pitch.unwrap_or(0).to_be_bytes());
    }
    put(&mut bytes, &[END]);
    bytes
}
