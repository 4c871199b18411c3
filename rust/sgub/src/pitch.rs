//! The pitch register of a note.

use crate::{Refusal, ffi, refusal};

/// The pitch register of a note shifted by so many semitones: 440 × 2^((note + semitones − 69) / 12), rounded to a whole
/// number, a half upward, but never more than 65,535.
///
/// # Errors
/// 28 where the note is above 127, or the shift outside −48 to 48.
///
/// # Examples
///
/// ```
/// use sgub::{Refusal, frequency};
///
/// // A4, and the A above it.
/// assert_eq!(frequency(69, 0), Ok(440));
/// assert_eq!(frequency(69, 12), Ok(880));
/// // 27.5 goes up.
/// assert_eq!(frequency(21, 0), Ok(28));
/// assert_eq!(frequency(128, 0), Err(Refusal { number: 28, place: 0 }));
/// ```
#[inline]
pub fn frequency(note: u8, semitones: i8) -> Result<u16, Refusal> {
    let answer = ffi::pitch::frequency(note, semitones);
    match refusal(answer.number, answer.place) {
        Some(refusal) => Err(refusal),
        None => Ok(answer.pitch),
    }
}
