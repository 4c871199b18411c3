//! Where two files first differ: each clause of the rule. The library has to tell two files apart exactly if there is a difference.

use crate::root;
use sgub::{Comparison, IMAGE_SIZE, WriteRecord, compare, repack_to_vec};
use sgub_cli::{Difference, first_difference};
use std::fs;

fn example(name: &str) -> Vec<u8> {
    fs::read(root().join("examples").join(name)).unwrap()
}

#[track_caller]
fn difference(master: &[u8], other: &[u8]) -> Option<Difference> {
    let mut images = [(); 2].map(|()| vec![0xA5; IMAGE_SIZE]);
    let [master_image, other_image] = &mut images;
    let answer = compare(master, other, master_image, other_image);
    let difference = first_difference(master, other, master_image, other_image);
    let expected = match difference {
        Some(_) => Comparison::Failed,
        None => Comparison::Passed,
    };
    assert_eq!(answer, Ok(expected), "{difference:?}");
    difference
}

fn write(target: u8, address: u32, value: u8) -> Option<WriteRecord> {
    Some(WriteRecord {
        target,
        address,
        value,
    })
}

#[test]
fn a_master_and_its_repacking_do_not_differ() {
    for name in ["empty-1.sgub", "tune-1.sgub"] {
        let master = example(name);
        assert_eq!(difference(&master, &repack_to_vec(&master).unwrap()), None);
    }
}

/// One byte of the other file is another.
#[test]
fn each_clause_of_the_rule_is_told() {
    let master = example("tune-1.sgub");
    let with = |at: usize, value: u8| {
        let mut other = example("tune-2.sgub");
        assert_ne!(other[at], value);
        other[at] = value;
        difference(&master, &other)
    };
    let opening = |number, writes| Difference::Opening {
        write: number,
        writes,
    };
    let frame = |frame, number, writes| Difference::Frame {
        frame,
        write: number,
        writes,
    };
    assert_eq!(with(6, 1), Some(Difference::Repeat([false, true])));
    // The opening: the FILL's value, the two WRITEs, and the COPY's address.
    let (address, values) = (8, [0x80, 0x81]);
    let beyond = Some(Difference::Pcm { address, values });
    assert_eq!(with(0x150 + 9, 0x81), beyond);
    let both = [write(0, 0x803, 0xC0), write(0, 0x803, 0xC1)];
    assert_eq!(with(0x15A + 5, 0xC1), Some(opening(1, both)));
    let both = [write(1, 0x803, 0xC0), write(0, 0x803, 0xC0)];
    assert_eq!(with(0x160 + 1, 0), Some(opening(2, both)));
    let both = [write(1, 0x803, 0xC0), None];
    assert_eq!(with(0x160 + 1, 2), Some(opening(2, both)));
    // The PCM pool.
    let (address, values) = (3, [0x98, 0x99]);
    assert_eq!(
        with(72 + 3, 0x99),
        Some(Difference::Pcm { address, values })
    );
    // The wave pool; the WRITE behind it, to the core and to PCM memory; the last byte of the file.
    let both = [write(0, 7, 14), write(0, 7, 15)];
    assert_eq!(with(80 + 7, 15), Some(frame(1, 8, both)));
    let both = [write(0, 0x800, 1), write(2, 0x800, 1)];
    assert_eq!(with(0x186 + 1, 2), Some(frame(1, 257, both)));
    let both = [write(0, 0x819, 1), write(0, 0x819, 2)];
    assert_eq!(with(0x1AD, 2), Some(frame(3, 3, both)));
}

#[test]
fn counts_differ_in_both_directions() {
    let (empty, tune) = (example("empty-1.sgub"), example("tune-1.sgub"));
    let (empty_2, tune_2) = (example("empty-2.sgub"), example("tune-2.sgub"));
    let counts = |counts| Some(Difference::FrameCount(counts));
    assert_eq!(difference(&empty, &tune_2), counts([1, 3]));
    assert_eq!(difference(&tune, &empty_2), counts([3, 1]));
    // A core write in the opening of one file only, and a frame of one file only that has a write.
    let opening = b"SGUB\x01\x10\0\0\0\0\0\x01\0\0\0\x01\0\0\0\x1B\x01\0\0\x05\x07\0\0";
    let frame = b"SGUB\x01\x10\0\0\0\0\0\x01\0\0\0\0\0\0\0\x1B\0\x01\x02\0\0\x05\x07";
    let first = |writes| Some(Difference::Opening { write: 1, writes });
    assert_eq!(difference(opening, &empty_2), first([write(1, 5, 7), None]));
    let other = repack_to_vec(opening).unwrap();
    assert_eq!(difference(&empty, &other), first([None, write(1, 5, 7)]));
    let first = |writes| {
        let (frame, write) = (1, 1);
        Some(Difference::Frame {
            frame,
            write,
            writes,
        })
    };
    assert_eq!(difference(frame, &empty_2), first([write(2, 5, 7), None]));
    let other = repack_to_vec(frame).unwrap();
    assert_eq!(difference(&empty, &other), first([None, write(2, 5, 7)]));
}

#[test]
fn refused_files_and_other_versions_have_no_difference() {
    let (master, other) = (example("tune-1.sgub"), example("tune-2.sgub"));
    let refused = example("refused-16.sgub");
    let images = [vec![0; IMAGE_SIZE], vec![1; IMAGE_SIZE]];
    for [first, second] in [
        [&refused, &other],
        [&master, &refused],
        [&master, &master],
        [&other, &other],
    ] {
        let found = first_difference(first, second, &images[0], &images[1]);
        assert_eq!(found, None);
    }
}
