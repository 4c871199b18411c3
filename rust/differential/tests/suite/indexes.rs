//! The library's indexes against the places that the original's reader reaches, and what is stored of them.

use differential::generators::shapes::{Large, Shape, large};
use differential::generators::{Choice, Family, Generator};
use differential::indexes::{self, Counts, Outcome, vectors};
use differential::model::weight;
use std::fs;
use std::path::Path;

#[test]
fn library_and_original_have_the_same_indexes() {
    let mut counts = Counts::default();
    let mut buffer = Vec::new();
    for shape in [None, Some(Shape::ManyFrames)] {
        let family = shape.map(|_| Family::Valid);
        let choice = Choice {
            shape,
            family,
            ..Choice::ANY
        };
        let mut generator = Generator::new(11, choice);
        for _ in 0..3_000 {
            let file = generator.next_file();
            if sgub::check(file).is_ok() && weight::writes(file) > 100_000 {
                continue;
            }
            let outcome = indexes::index(file, &mut buffer);
            let outcome = outcome.unwrap_or_else(|text| panic!("{text}: {file:02x?}"));
            counts.count(file, outcome);
        }
    }
    assert!(counts.all_occurred(), "{counts:?}");
}

/// No index is longer than that of the longest file of empty frames.
#[test]
fn the_longest_index_has_458764_bytes() {
    let file = large(Large::V1EmptyFrames, 0xE0_0000);
    let outcome = indexes::index(&file, &mut Vec::new());
    assert_eq!(outcome, Ok(Outcome::Written(sgub::LONGEST_INDEX)));
}

/// The data of crates/test_indexes is what `differential index-vectors` writes.
#[test]
fn the_stored_vectors_are_these() {
    let data = Path::new(env!("CARGO_MANIFEST_DIR")).join("../../crates/test_indexes/data");
    let vectors = vectors::choose(500, 1).unwrap();
    let stored = fs::read(data.join("indexes.bin")).unwrap();
    assert!(stored == vectors::to_bytes(&vectors));
    for number in (0..=20).chain([24]) {
        assert!(vectors.iter().any(|vector| vector.refusal[0] == number));
    }
}
