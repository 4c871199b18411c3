//! Joining: two files of version 2 as one.

use crate::{LONGEST_RESULT, Refusal, ffi};
use std::error::Error;
use std::fmt;

/// The bytes of a header of version 2. Two files have two, their joining has one.
const HEADER: usize = 40;

/// One of the files that are joined.
#[derive(Clone, Copy, Debug, PartialEq, Eq, Hash)]
pub enum Piece {
    /// The file that is played first.
    First,
    /// The file that follows.
    Second,
}

impl fmt::Display for Piece {
    fn fmt(&self, f: &mut fmt::Formatter<'_>) -> fmt::Result {
        f.write_str(match self {
            Self::First => "first",
            Self::Second => "second",
        })
    }
}

/// Why two files are not joined. It is displayed as the command prints it: `refused first NUMBER PLACE`, `refused second NUMBER
/// PLACE` or, where it is about both, `refused NUMBER PLACE`.
#[derive(Clone, Copy, Debug, PartialEq, Eq)]
pub struct RefusedJoin {
    /// The file that is refused by itself; `None` where it is not one of the two alone.
    pub piece: Option<Piece>,
    /// The refusal.
    pub refusal: Refusal,
}

impl fmt::Display for RefusedJoin {
    fn fmt(&self, f: &mut fmt::Formatter<'_>) -> fmt::Result {
        let Refusal { number, place } = self.refusal;
        match self.piece {
            Some(piece) => write!(f, "refused {piece} {number} {place}"),
            None => self.refusal.fmt(f),
        }
    }
}

impl Error for RefusedJoin {}

/// Joins two files of version 2 into `buffer` and gives the length of the result, which stands at the buffer's start: that of
/// both files, less 40. The bytes behind it stay as they were.
///
/// The frames of the second file follow those of the first, and so do its pools. Its opening operations stand before those of its
/// own first frame. The result repeats if the second file does.
///
/// # Errors
/// The first refusal that applies, and its file: the first file's 1 to 21, where [`check`](crate::check) refuses it or its
/// version is not 2; the second file's; then, of the two together, 29 where the second file's opening and its first frame have
/// more than 65,535 operations, 30 where there are more than 65,536 pools, 23 where the result would exceed [`LONGEST_RESULT`],
/// and 24 where the buffer is too short. The buffer is then as it was.
pub fn join(first: &[u8], second: &[u8], buffer: &mut [u8]) -> Result<usize, RefusedJoin> {
    let joined = ffi::join::join(first, second, buffer);
    let piece = match (joined.number, joined.file) {
        (0, _) => return Ok(joined.size as usize),
        (_, 1) => Some(Piece::First),
        (_, 2) => Some(Piece::Second),
        _ => None,
    };
    let refusal = Refusal {
        number: joined.number,
        place: joined.place as usize,
    };
    Err(RefusedJoin { piece, refusal })
}

/// Joins two files of version 2 in memory of its own, which has room for the result.
///
/// # Errors
/// As [`join`], but for 24.
///
/// # Examples
///
/// ```
/// use sgub::{check, join_to_vec, repack_to_vec};
///
/// // Version 1, one empty frame; and as a file of version 2.
/// let master = b"SGUB\x01\x10\0\0\0\0\0\x01\0\0\0\0\0\0\0\x16\0\0";
/// let piece = repack_to_vec(master).unwrap();
/// let evening = join_to_vec(&piece, &piece).unwrap();
/// assert_eq!(evening.len(), 2 * piece.len() - 40);
/// assert_eq!(check(&evening).unwrap().frame_count, 2);
///
/// let refused = join_to_vec(&piece, master).unwrap_err();
/// assert_eq!(refused.to_string(), "refused second 21 0");
/// ```
pub fn join_to_vec(first: &[u8], second: &[u8]) -> Result<Vec<u8>, RefusedJoin> {
    let size = first.len().saturating_add(second.len());
    let mut result = vec![0; size.saturating_sub(HEADER).min(LONGEST_RESULT)];
    let size = join(first, second, &mut result)?;
    result.truncate(size);
    Ok(result)
}
