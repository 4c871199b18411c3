//! The library's pitches against the original's, and what is stored of them.

use differential::pitches::{self, Counts, vectors};
use std::fs;
use std::path::Path;

#[test]
fn library_and_original_have_the_same_pitches() {
    let counts = Counts {
        pitches: 128 * 97,
        refused: 256 * 256 - 128 * 97,
    };
    assert_eq!(pitches::compare(sgub::frequency), Ok(counts));
}

/// The data of crates/test_pitches is what `differential pitch-vectors` writes.
#[test]
fn the_stored_vectors_are_these() {
    let data = Path::new(env!("CARGO_MANIFEST_DIR")).join("../../crates/test_pitches/data");
    assert!(fs::read(data.join("pitches.bin")).unwrap() == vectors::to_bytes());
    assert_eq!(vectors::choose().count(), 14_196);
}
