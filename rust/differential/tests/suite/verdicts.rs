//! The library's verdicts against the original's, and what is stored of them.

use differential::generators::shapes::{Large, large};
use differential::generators::{Choice, Generator, extremes};
use differential::sheet;
use differential::verdicts::vectors::{self, LONGEST};
use differential::verdicts::{self, Counts};
use std::collections::{BTreeMap, HashSet};

#[test]
fn library_and_original_agree_and_every_verdict_occurs() {
    let mut counts = Counts::default();
    let mut generator = Generator::new(11, Choice::ANY);
    for _ in 0..200_000 {
        let file = generator.next_file();
        let verdict = verdicts::verdict(file).unwrap_or_else(|text| panic!("{text}: {file:02x?}"));
        counts.count(&verdict);
    }
    assert_eq!(counts.files(), 200_000);
    assert!(counts.all_occurred(), "{counts:?}");
}

#[test]
fn large_files_are_accepted_by_both() {
    for shape in Large::ALL {
        let verdict = verdicts::verdict(&large(shape, 300_000)).unwrap();
        assert!(verdict.is_ok(), "{shape:?}");
    }
}

#[test]
fn the_sheets_examples_have_the_sheets_answers() {
    let vectors = vectors::choose(0, 1).unwrap();
    assert_eq!(vectors.len(), sheet::rows().len());
}

/// Half of the files come from the family at the limits, and every verdict occurs about equally often in each half.
#[test]
fn vectors_have_every_verdict() {
    let vectors = vectors::choose(1000, 1).unwrap();
    assert_eq!(vectors.len(), 1000);
    let files: HashSet<&[u8]> = vectors
        .iter()
        .map(|vector| vector.file.as_slice())
        .collect();
    assert_eq!(files.len(), 1000);
    assert!(files.iter().all(|file| file.len() <= LONGEST));
    let mut counts = BTreeMap::new();
    for vector in &vectors {
        let [number, place, version, frames, opening] = vector.answer;
        *counts.entry((number, version)).or_insert(0) += 1;
        if number == 0 {
            assert_eq!((place, frames == 0), (0, false));
        } else {
            assert_eq!((version, frames, opening), (0, 0, 0));
        }
    }
    let wanted = (1..=4).map(|version| (0, version));
    let wanted = wanted.chain((1..=20).map(|number| (number, 0)));
    assert_eq!(
        counts.keys().copied().collect::<HashSet<_>>(),
        wanted.collect()
    );
    assert!(counts.values().all(|count| *count >= 20), "{counts:?}");
}

#[test]
fn vectors_are_stored_one_behind_the_other() {
    let vectors = vectors::choose(100, 2).unwrap();
    let bytes = vectors::to_bytes(&vectors);
    let number = |at: usize| u32::from_be_bytes(bytes[at..at + 4].try_into().unwrap());
    let mut at = 0;
    for vector in &vectors {
        let length = number(at) as usize;
        at += 4;
        assert_eq!(bytes[at..at + length], vector.file);
        at += length;
        assert_eq!(
            [0, 4, 8, 12, 16].map(|field| number(at + field)),
            vector.answer
        );
        at += 20;
    }
    assert_eq!((number(at), at + 4), (u32::MAX, bytes.len()));
}

/// The long files lie at the limits: some are accepted, and each limit refuses some.
#[test]
fn extremes_are_at_the_limits() {
    let mut counts = Counts::default();
    extremes::for_each(|file| counts.count(&verdicts::verdict(file).unwrap()));
    // Of each version: sizes to the limit, and a long frame; of pooled versions all pools but one, all, and the greatest of
    // both kinds, of which version 2 has one.
    assert_eq!(counts.accepted, [3, 6, 7, 8]);
    let refused = |number: usize| counts.refused[number - 1];
    assert_eq!((refused(8), refused(10), refused(20)), (11, 6, 4));
}
