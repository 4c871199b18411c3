//! The library's joining against the definition, the pairs that are joined, and what is stored of them.

use differential::examples::example;
use differential::generators::{Choice, Family, Generator};
use differential::joins::large::{Content, piece};
use differential::joins::pairs::{Kind, Pairs};
use differential::joins::{self, Counts, Outcome, limits, vectors};
use differential::model::Stream;
use sgub::{Piece, Refusal, RefusedJoin};
use std::fs;
use std::path::Path;

#[test]
fn the_model_reads_what_it_writes() {
    let choice = Choice {
        versions: 2..=2,
        ..Choice::of(Family::Valid)
    };
    let mut generator = Generator::new(11, choice);
    for _ in 0..3_000 {
        let file = generator.next_file();
        assert!(Stream::read_version_2(file).to_bytes() == file);
    }
}

#[test]
fn library_definition_and_original_agree() {
    let mut counts = Counts::default();
    let mut buffer = Vec::new();
    let mut join = |pair: [Vec<u8>; 2]| {
        let files = pair.each_ref().map(Vec::as_slice);
        let outcome = joins::join(files, &mut buffer);
        let sizes = files.map(<[u8]>::len);
        counts.count(outcome.unwrap_or_else(|text| panic!("{text}: {sizes:?} bytes")));
    };
    for index in 0..limits::COUNT {
        join(limits::made(index));
    }
    let mut pairs = Pairs::new(11);
    for _ in 0..3_000 {
        join(pairs.next_pair());
    }
    assert!(counts.all_occurred(), "{counts:?}");
    assert_eq!(counts.pairs(), limits::COUNT as u64 + 3_000);
}

#[test]
fn kinds_are_what_they_say() {
    let mut pairs = Pairs::new(1);
    for kind in Kind::TURNS {
        let mut meant = 0;
        for _ in 0..100 {
            let pair = pairs.pair(kind);
            let files = pair.each_ref().map(Vec::as_slice);
            let outcome = joins::join(files, &mut Vec::new()).unwrap();
            let refused = match outcome {
                Outcome::Joined(_) => None,
                Outcome::Refused(refused, _) => refused.piece,
            };
            meant += match kind {
                Kind::Accepted => u32::from(refused.is_none()),
                Kind::Itself => u32::from(files[0] == files[1] && refused.is_none()),
                Kind::AnyFirst => u32::from(refused == Some(Piece::First)),
                Kind::AnySecond => u32::from(refused == Some(Piece::Second)),
                Kind::Any | Kind::Changed | Kind::OtherVersion => u32::from(refused.is_some()),
            };
        }
        let least = match kind {
            Kind::Accepted | Kind::Itself => 100,
            _ => 20,
        };
        assert!(meant >= least, "{kind:?} {meant}");
    }
}

#[test]
fn refusals_come_in_their_order() {
    let [tune, refused, master] = ["tune-2", "refused-17", "tune-1"].map(example);
    for (files, piece, number, place, several) in [
        ([&refused, &refused], Piece::First, 17, 40, true),
        ([&master, &refused], Piece::First, 21, 0, true),
        ([&refused, &tune], Piece::First, 17, 40, false),
        ([&tune, &refused], Piece::Second, 17, 40, false),
        ([&tune, &master], Piece::Second, 21, 0, false),
    ] {
        let outcome = joins::join(files.map(|file| file.as_slice()), &mut Vec::new());
        let (piece, refusal) = (Some(piece), Refusal { number, place });
        let refused = RefusedJoin { piece, refusal };
        assert_eq!(outcome, Ok(Outcome::Refused(refused, several)));
    }
}

/// The pairs of the benchmark can be joined, and are as long as they should be.
#[test]
fn large_pieces_are_joined() {
    for content in Content::ALL {
        let file = piece(content, 7_000_000);
        assert!((6_600_000..=7_000_000).contains(&file.len()), "{content:?}");
        let joined = sgub::join_to_vec(&file, &file);
        assert_eq!(joined.map(|bytes| bytes.len()), Ok(2 * file.len() - 40));
    }
}

/// The data of crates/test_joins is what `differential join-vectors` writes.
#[test]
fn the_stored_vectors_are_these() {
    let data = Path::new(env!("CARGO_MANIFEST_DIR")).join("../../crates/test_joins/data");
    let vectors = vectors::choose(500, 1).unwrap();
    assert_eq!(vectors.len(), 500);
    let stored = fs::read(data.join("joins.bin")).unwrap();
    assert!(stored == vectors::to_bytes(&vectors));
    let has = |file: u32, number: u32| {
        let mut vectors = vectors.iter();
        vectors.any(|vector| (vector.file, vector.refusal[0]) == (file, number))
    };
    for number in [0, 24, 29, 30] {
        assert!(has(0, number), "{number}");
    }
    for number in 1..=21 {
        assert!(has(1, number) && has(2, number), "{number}");
    }
}
