//! The index of a file: where the counts of frames 1, 65, 129 and so on stand, for
//! [`StreamPlayer::jump_to_frame`](crate::StreamPlayer::jump_to_frame).

use crate::{Refusal, ffi, refusal};

/// The longest index: 4 bytes for each 64 frames of the longest file of empty frames, and 12 more.
pub const LONGEST_INDEX: usize = 458_764;

/// Checks a file and builds its index into `buffer`. Gives the length of the index, which stands at the buffer's start. The
/// bytes behind it stay as they were.
///
/// # Errors
/// The first refusal that applies: 1 to 20 where [`check`](crate::check) refuses the file, 24 where the buffer is too short.
/// The buffer is then as it was.
pub fn build_index_into(file: &[u8], buffer: &mut [u8]) -> Result<usize, Refusal> {
    let indexed = ffi::index::index(file, buffer);
    match refusal(indexed.number, indexed.place) {
        Some(refusal) => Err(refusal),
        None => Ok(indexed.size as usize),
    }
}

/// Checks a file and builds its index in memory of its own, which has room for it.
///
/// # Errors
/// The refusal that [`check`](crate::check) gives.
///
/// # Examples
///
/// ```
/// use sgub::{StreamPlayer, WriteRecord, build_index};
///
/// // Version 1, one empty frame.
/// let file = b"SGUB\x01\x10\0\0\0\0\0\x01\0\0\0\0\0\0\0\x16\0\0";
/// // Its count stands at 20. Then the distance back to this entry, the number of entries, and the file's length.
/// let index = build_index(file).unwrap();
/// assert_eq!(index, [0, 0, 0, 20, 0, 0, 0, 4, 0, 0, 0, 1, 0, 0, 0, 22]);
///
/// let mut player = StreamPlayer::start(file).unwrap();
/// while !player.is_finished() {
///     let _ = player.advance_vsync(file, &mut [WriteRecord::default(); 64]).unwrap();
/// }
/// player.jump_to_frame(file, &index, 1).unwrap();
/// assert!(!player.is_finished());
/// ```
pub fn build_index(file: &[u8]) -> Result<Vec<u8>, Refusal> {
    // Each frame has two bytes at least, for its count.
    let entries = (file.len() / 2).div_ceil(64);
    let mut index = vec![0; (4 * entries + 12).min(LONGEST_INDEX)];
    let size = build_index_into(file, &mut index)?;
    index.truncate(size);
    index.shrink_to_fit();
    Ok(index)
}
