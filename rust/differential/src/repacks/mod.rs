//! The library's repacking against the original's, byte for byte.

mod counts;
pub mod vectors;

pub use crate::lent::Outcome;
pub use counts::Counts;

use crate::{lent, oracle};
use sgub::{Header, Refusal};

/// The outcome of the library, or what the original says otherwise. The memory of `buffer` is used again.
///
/// The original repacks what its own compiler made, and tests nothing. So only an accepted master is compared with it; for
/// another file the library has to refuse as its own check does, and an accepted one of another version with 21.
pub fn repack(file: &[u8], buffer: &mut Vec<u8>) -> Result<Outcome, String> {
    let number = match sgub::check(file) {
        Err(refusal) => return lent::refused(sgub::repack, file, refusal, buffer),
        Ok(Header { version: 1, .. }) => match oracle::repack(file) {
            Ok(result) => return lent::written(sgub::repack, file, &result, buffer),
            Err(message) => number(&message)?,
        },
        Ok(_) => 21,
    };
    lent::refused(sgub::repack, file, Refusal { number, place: 0 }, buffer)
}

/// The sheet's number for a message of the original's repacker on an accepted master.
fn number(message: &str) -> Result<u32, String> {
    match message {
        "v2 compiler requires contiguous PCM initialization" => Ok(22),
        "SGUB v2 stream exceeds the 0x00E00000-byte limit" => Ok(23),
        _ => Err(format!("original {message:?}, which has no number")),
    }
}
