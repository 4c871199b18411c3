//! The comparison of a master, which is a file of version 1, with a file of version 2.

use crate::{Refusal, ffi};
use std::error::Error;
use std::fmt;

/// The bytes of a memory image.
pub const IMAGE_SIZE: usize = 0x10_0000;

/// What the comparison of two files comes to where none is refused.
#[derive(Clone, Copy, Debug, PartialEq, Eq, Hash)]
#[must_use]
pub enum Comparison {
    /// The files sound the same.
    Passed,
    /// They do not by the format sheet's rule.
    Failed,
}

/// One of the files that are compared.
#[derive(Clone, Copy, Debug, PartialEq, Eq, Hash)]
pub enum Side {
    /// The file of version 1.
    Master,
    /// The file of version 2.
    Other,
}

impl fmt::Display for Side {
    fn fmt(&self, f: &mut fmt::Formatter<'_>) -> fmt::Result {
        f.write_str(match self {
            Self::Master => "master",
            Self::Other => "other",
        })
    }
}

/// Why two files are not compared: which of them is refused, and why. It is displayed as the command prints it, `refused
/// master NUMBER PLACE` or `refused other NUMBER PLACE`.
#[derive(Clone, Copy, Debug, PartialEq, Eq)]
pub struct RefusedFile {
    /// The file that is refused, or whose image is too short.
    pub side: Side,
    /// Its refusal.
    pub refusal: Refusal,
}

impl fmt::Display for RefusedFile {
    fn fmt(&self, f: &mut fmt::Formatter<'_>) -> fmt::Result {
        let Refusal { number, place } = self.refusal;
        write!(f, "refused {} {number} {place}", self.side)
    }
}

impl Error for RefusedFile {}

/// Compares a master with a file of version 2: repeat and frame count, the opening's writes to the cores, PCM memory after
/// the opening, and each frame's writes.
///
/// Pass or fail, the first [`IMAGE_SIZE`] bytes of each image then are the PCM memory that its file's opening leaves, which
/// begins at 0x80. The bytes behind them stay as they were.
///
/// # Errors
/// The first refusal that applies, and its file: the master's 1 to 21, where [`check`](crate::check) refuses it or its
/// version is not 1; the other file's 1 to 21, where its version is to be 2; 24 where the master's image is too short, then
/// where the other's is. The images are then as they were.
///
/// # Examples
///
/// ```
/// use sgub::{Comparison, IMAGE_SIZE, compare, repack_to_vec};
///
/// // Version 1, one empty frame.
/// let master = b"SGUB\x01\x10\0\0\0\0\0\x01\0\0\0\0\0\0\0\x16\0\0";
/// let other = repack_to_vec(master).unwrap();
/// let mut images = [vec![0; IMAGE_SIZE], vec![0; IMAGE_SIZE]];
/// let [master_image, other_image] = &mut images;
/// let comparison = compare(master, &other, master_image, other_image);
/// assert_eq!(comparison, Ok(Comparison::Passed));
/// assert!(images[0].iter().all(|byte| *byte == 0x80));
/// ```
pub fn compare(
    master: &[u8],
    other: &[u8],
    master_image: &mut [u8],
    other_image: &mut [u8],
) -> Result<Comparison, RefusedFile> {
    let compared = ffi::comparison::compare(master, other, master_image, other_image);
    let side = match (compared.file, compared.passed) {
        (0, true) => return Ok(Comparison::Passed),
        (0, false) => return Ok(Comparison::Failed),
        (1, _) => Side::Master,
        _ => Side::Other,
    };
    let refusal = Refusal {
        number: compared.number,
        place: compared.place as usize,
    };
    Err(RefusedFile { side, refusal })
}
