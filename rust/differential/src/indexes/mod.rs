//! The library's indexes against the places that the original's reader reaches.

mod counts;
pub mod vectors;

pub use crate::lent::Outcome;
pub use counts::Counts;

use crate::{lent, oracle, stored};

/// An index has an entry for each so many frames.
pub const SPACING: usize = 64;

/// The index of a file whose frames' counts stand at these places, written from document 02.
pub fn of_places(places: &[usize], size: usize) -> Vec<u8> {
    let entries: Vec<u32> = places
        .iter()
        .step_by(SPACING)
        .map(|place| *place as u32)
        .collect();
    let count = entries.len() as u32;
    let mut index = Vec::with_capacity(4 * entries.len() + 12);
    stored::put(&mut index, &entries);
    // The trailer: the distance from its first byte back to the first entry, the number of entries, the file's total size.
    stored::put(&mut index, &[4 * count, count, size as u32]);
    index
}

/// The index of an accepted file, by the original.
///
/// # Errors
/// The original's message, if it refuses the file.
pub fn by_original(file: &[u8]) -> Result<Vec<u8>, String> {
    Ok(of_places(&oracle::frame_places(file)?, file.len()))
}

/// The outcome of the library, or what the original says otherwise. The memory of `buffer` is used again. A file that the check
/// refuses has to be refused in the same way.
pub fn index(file: &[u8], buffer: &mut Vec<u8>) -> Result<Outcome, String> {
    match sgub::check(file) {
        Err(refusal) => lent::refused(sgub::build_index_into, file, refusal, buffer),
        Ok(_) => index_beside(file, &by_original(file)?, buffer),
    }
}

/// The index of an accepted file beside one that it should be.
fn index_beside(file: &[u8], expected: &[u8], buffer: &mut Vec<u8>) -> Result<Outcome, String> {
    let outcome = lent::written(sgub::build_index_into, file, expected, buffer)?;
    let own = sgub::build_index(file);
    if own.as_deref() != Ok(expected) {
        return Err(format!("in memory of its own the library has {own:02x?}"));
    }
    Ok(outcome)
}

#[cfg(test)]
mod tests {
    use super::*;
    use crate::examples::example;

    #[test]
    fn the_examples_have_the_same_index() {
        for name in ["empty-1", "tune-1", "tune-2", "bank-3", "cards-4"] {
            let outcome = index(&example(name), &mut Vec::new());
            assert_eq!(outcome, Ok(Outcome::Written(16)), "{name}");
        }
        let outcome = index(&example("refused-16"), &mut Vec::new());
        assert!(matches!(outcome, Ok(Outcome::Refused(_))));
    }

    /// Each byte of an index counts, and so does its length.
    #[test]
    fn a_difference_is_noticed() {
        let file = example("tune-1");
        let own = by_original(&file).unwrap();
        for at in 0..own.len() {
            let mut other = own.clone();
            other[at] ^= 1;
            let error = index_beside(&file, &other, &mut Vec::new()).unwrap_err();
            assert!(error.starts_with(&format!("byte {at} of 16")), "{error}");
        }
        for other in [&own[..15], &[&own[..], &[0]].concat()] {
            assert!(index_beside(&file, other, &mut Vec::new()).is_err());
        }
    }
}
