//! Repacking: a master, which is a file of version 1, as a file of version 2.

use crate::{Refusal, ffi, refusal};

/// The longest file that repacking or joining makes; where the result would be longer, the answer is refusal 23.
pub const LONGEST_RESULT: usize = 0xE0_0000;

/// Repacks a master into `buffer` and gives the length of the result, which stands at the buffer's start. The bytes behind
/// it stay as they were.
///
/// # Errors
/// The first refusal that applies: 1 to 20 where [`check`](crate::check) refuses the file, 21 where its version is not 1,
/// 22 where the opening's PCM writes do not run 0, 1, 2 and so on, 23 where the result would exceed [`LONGEST_RESULT`], 24
/// where the buffer is too short. The buffer is then as it was.
pub fn repack(file: &[u8], buffer: &mut [u8]) -> Result<usize, Refusal> {
    let repacked = ffi::repack::repack(file, buffer);
    match refusal(repacked.number, repacked.place) {
        Some(refusal) => Err(refusal),
        None => Ok(repacked.size as usize),
    }
}

/// Repacks a master into memory of its own, which has room for every result.
///
/// # Errors
/// As [`repack`], but for 24.
pub fn repack_to_vec(file: &[u8]) -> Result<Vec<u8>, Refusal> {
    let mut result = vec![0; LONGEST_RESULT];
    let size = repack(file, &mut result)?;
    result.truncate(size);
    result.shrink_to_fit();
    Ok(result)
}
