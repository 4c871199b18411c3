//! The library's pitches against the original's `frequency` without a base note, over all pairs of a note and a shift.

pub mod vectors;

use crate::oracle;
use sgub::Refusal;
use std::ops::RangeInclusive;

/// The notes that have a pitch, by document 02.
pub const NOTES: RangeInclusive<u8> = 0..=127;

/// The shifts in semitones that have a pitch, by document 02.
pub const SHIFTS: RangeInclusive<i8> = -48..=48;

/// The answer for every other pair.
pub const REFUSED: Refusal = Refusal {
    number: 28,
    place: 0,
};

/// How many pairs have a pitch, and how many are refused.
#[derive(Clone, Copy, Debug, Default, PartialEq, Eq)]
pub struct Counts {
    /// Pairs with a pitch.
    pub pitches: u64,
    /// Refused pairs.
    pub refused: u64,
}

/// All 256 × 256 pairs of a note and a shift.
pub fn pairs() -> impl Iterator<Item = (u8, i8)> {
    let shifts = || i8::MIN..=i8::MAX;
    (u8::MIN..=u8::MAX).flat_map(move |note| shifts().map(move |shift| (note, shift)))
}

/// The pitch that the original gives, which takes any numbers; or 28 where document 02 refuses.
///
/// # Errors
/// 28, for a note or a shift out of range.
pub fn by_original(note: u8, semitones: i8) -> Result<u16, Refusal> {
    if NOTES.contains(&note) && SHIFTS.contains(&semitones) {
        Ok(oracle::frequency(note, semitones))
    } else {
        Err(REFUSED)
    }
}

/// Compares an answer with the original's, for all pairs.
///
/// # Errors
/// The first pair whose answer is another.
pub fn compare(answer: impl Fn(u8, i8) -> Result<u16, Refusal>) -> Result<Counts, String> {
    let mut counts = Counts::default();
    for (note, semitones) in pairs() {
        let (found, expected) = (answer(note, semitones), by_original(note, semitones));
        if found != expected {
            return Err(format!(
                "note {note}, shift {semitones}: library {found:?}, expected {expected:?}"
            ));
        }
        match expected {
            Ok(_) => counts.pitches += 1,
            Err(_) => counts.refused += 1,
        }
    }
    Ok(counts)
}

#[cfg(test)]
mod tests {
    use super::*;

    /// One pair is enough, whichever it is: a pitch off by one, a refusal for a pitch, a pitch for a refusal, another refusal.
    #[test]
    fn a_difference_is_noticed() {
        let other = |note, semitones, answer| {
            let found = compare(|n, s| match (n, s) == (note, semitones) {
                true => answer,
                false => by_original(n, s),
            });
            let error = found.unwrap_err();
            let pair = format!("note {note}, shift {semitones}: ");
            assert!(error.starts_with(&pair), "{error}");
        };
        other(0, -48, Ok(2));
        other(69, 0, Ok(441));
        other(127, 48, Err(REFUSED));
        other(128, 0, Ok(13290));
        other(0, -49, Ok(0));
        other(
            255,
            127,
            Err(Refusal {
                place: 1,
                ..REFUSED
            }),
        );
        other(
            255,
            -128,
            Err(Refusal {
                number: 27,
                place: 0,
            }),
        );
    }
}
