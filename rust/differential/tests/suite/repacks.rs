//! The library's repacking against the original's, and what is stored of it.

use differential::generators::masters::Masters;
use differential::repacks::{self, Counts, vectors};
use std::fs;
use std::path::Path;

#[test]
fn library_and_original_repack_alike() {
    let mut counts = Counts::default();
    let mut masters = Masters::new(11);
    let mut buffer = Vec::new();
    for _ in 0..5_000 {
        let file = masters.next_file();
        let outcome = repacks::repack(file, &mut buffer);
        counts.count(outcome.unwrap_or_else(|text| panic!("{text}: {} bytes", file.len())));
    }
    assert_eq!(counts.files(), 5_000);
    let (checked, own) = counts.refused();
    assert_eq!((checked, own[0]), (0, 0), "masters are accepted");
    assert!(counts.written > 1_000 && own[1] > 100, "{counts:?}");
}

/// The data of crates/test_repacks is what `differential repack-vectors` writes.
#[test]
fn the_stored_vectors_are_these() {
    let data = Path::new(env!("CARGO_MANIFEST_DIR")).join("../../crates/test_repacks/data");
    let vectors = vectors::choose(400, 1).unwrap();
    let stored = fs::read(data.join("repacks.bin")).unwrap();
    assert!(stored == vectors::to_bytes(&vectors));
    for number in [0, 21, 22, 24] {
        assert!(vectors.iter().any(|vector| vector.refusal[0] == number));
    }
}
