//! What the generators make: accepted shapes, every message of the original, every limit.

mod boundary;
mod large;
mod masters;

use crate::numbers;
use differential::generators::shapes::Shape;
use differential::generators::{Choice, Family, Generator, limits, mutate, short};
use differential::model::fields::Field;
use differential::model::{MAX_SIZE, Operation, Pool, Stream};
use differential::oracle;
use differential::oracle::survey::Survey;
use differential::rng::Rng;
use std::collections::{BTreeMap, BTreeSet};

/// Draws `count` streams of every version and shape, of huge ones one.
fn each_shape(count: u32, mut visit: impl FnMut(Shape, &Stream)) {
    let mut stream = Stream::default();
    for version in 1..=4 {
        for shape in Shape::of(version) {
            let mut rng = Rng::new(shape as u64);
            for _ in 0..if shape.is_huge() { 1 } else { count } {
                shape.draw(version, &mut rng, &mut stream);
                visit(shape, &stream);
            }
        }
    }
}

#[test]
fn every_shape_is_accepted_as_it_was_drawn() {
    each_shape(300, |shape, stream| {
        let file = stream.to_bytes();
        assert_eq!(file.len(), stream.size());
        let accepted = oracle::verdict(&file)
            .unwrap_or_else(|message| panic!("{shape:?} {message}: {file:02x?}"));
        assert_eq!(accepted.version, stream.version);
        assert_eq!(accepted.repeats, stream.repeat);
        assert_eq!(accepted.frame_period, stream.period);
        assert_eq!(accepted.frame_count as usize, stream.frames.len());
        let kinds = |pools: &[Pool]| pools.iter().map(|pool| pool.kind).collect::<Vec<_>>();
        let found: Vec<u8> = accepted.pools.iter().map(|pool| pool.kind).collect();
        assert_eq!(found, kinds(&stream.pools));
        let slots: Vec<u8> = stream.cards.iter().map(|card| card.slot).collect();
        let found: Vec<u8> = accepted.cards.iter().map(|card| card.slot).collect();
        assert_eq!(found, slots);
    });
}

/// Fields follow each other and leave out payloads only.
#[test]
fn the_fields_of_a_file_cover_it() {
    let (mut bytes, mut fields) = (Vec::new(), Vec::<Field>::new());
    each_shape(20, |shape, stream| {
        stream.write(&mut bytes, &mut fields);
        let mut at = 0;
        let mut skipped = 0;
        for field in &fields {
            skipped += field.at as usize - at;
            at = field.at as usize + usize::from(field.width);
        }
        let payloads = stream.pools.iter().map(|pool| pool.payload.len());
        assert_eq!(skipped, payloads.sum::<usize>(), "{shape:?}");
        assert_eq!(at, bytes.len());
    });
}

#[test]
fn a_seed_gives_the_same_files_again() {
    let first = |seed| {
        let mut generator = Generator::new(seed, Choice::ANY);
        let files = (0..2000).map(|_| generator.next_file().to_vec());
        files.collect::<Vec<_>>()
    };
    assert!(first(1) == first(1));
    assert!(first(1) != first(2));
}

#[test]
fn every_message_is_reached() {
    let mut survey = Survey::default();
    let mut generator = Generator::new(1, Choice::ANY);
    for _ in 0..300_000 {
        let _ = survey.ask(generator.next_file());
    }
    assert!(survey.missing().is_empty(), "{:?}", survey.missing());
    assert!(survey.unexpected().is_empty(), "{:?}", survey.unexpected());
    assert!(survey.accepted > 60_000, "{}", survey.accepted);
}

fn family(seed: u64, version: u8, family: Family) -> Generator {
    let choice = Choice {
        versions: version..=version,
        shape: Some(Shape::Small),
        family: Some(family),
    };
    Generator::new(seed, choice)
}

#[test]
fn small_files_are_cut_off_at_every_length() {
    for version in 1..=4 {
        let mut generator = family(3, version, Family::Truncated);
        let whole = generator.next_file().len();
        let mut lengths = vec![whole];
        for _ in 0..2 * whole + 1 {
            lengths.push(generator.next_file().len());
        }
        let expected: Vec<_> = (0..=whole).rev().flat_map(|n| [n, n]).collect();
        assert_eq!(lengths, expected);
    }
}

/// Each field of a file with all tables gets each of its values: 0, the greatest, one more, one less and the limits.
#[test]
fn every_field_is_broken_in_every_way() {
    let mut rng = Rng::new(1);
    let (mut base, mut fields, mut file) = (Vec::new(), Vec::<Field>::new(), Vec::new());
    for version in 1..=4 {
        every_operation(version).write(&mut base, &mut fields);
        let mut seen = vec![BTreeSet::new(); fields.len()];
        for _ in 0..200_000 {
            mutate::break_field(&mut rng, &base, &fields, &mut file);
            for (field, seen) in fields.iter().zip(&mut seen) {
                seen.insert(field.read(&file));
            }
        }
        for (field, seen) in fields.iter().zip(&seen) {
            let greatest = u32::MAX >> (32 - 8 * u32::from(field.width));
            let old = field.read(&base);
            let mut wanted = vec![0, greatest, old.wrapping_add(1), old.wrapping_sub(1)];
            wanted.extend(limits::of(field.role));
            for value in wanted {
                assert!(seen.contains(&(value & greatest)), "{field:?} {value:x}");
            }
        }
    }
}

/// A stream with an operation of each kind that its version has, and all its tables.
fn every_operation(version: u8) -> Stream {
    let mut rng = Rng::new(1);
    let mut stream = Stream::default();
    let kinds = |stream: &Stream| {
        let opcode = |operation: &Operation| match operation {
            Operation::Write { .. } => 0,
            Operation::Fill { .. } => 1,
            Operation::Copy { .. } => 2,
        };
        let operations = stream.opening.iter().chain(stream.frames.iter().flatten());
        operations.map(opcode).collect::<BTreeSet<_>>().len()
    };
    loop {
        Shape::Small.draw(version, &mut rng, &mut stream);
        let kinds = kinds(&stream);
        let whole = match version {
            1 => kinds == 1 && !stream.opening.is_empty(),
            2 | 3 => kinds == 3,
            _ => kinds == 3 && !stream.cards.is_empty(),
        };
        if whole {
            return stream;
        }
    }
}

#[test]
fn periods_at_and_beside_the_limits_are_tried() {
    let mut seen = BTreeMap::new();
    let mut generator = family(1, 4, Family::Boundary);
    for _ in 0..20_000 {
        let file = generator.next_file();
        if numbers(file).is_empty() || numbers(file) == [6] {
            let period = u32::from_be_bytes(file[40..44].try_into().unwrap());
            seen.insert(period, numbers(file).is_empty());
        }
    }
    for period in [0, 48_000, 48_000_000] {
        assert_eq!(seen.get(&period), Some(&true), "{period}");
    }
    for period in [1, 47_999, 48_000_001] {
        assert_eq!(seen.get(&period), Some(&false), "{period}");
    }
}

/// A version 4 file with a card pool that makes it `size` bytes long.
fn of_size(size: usize) -> Vec<u8> {
    let mut stream = Stream::empty_frame(4);
    stream.pools.push(Pool {
        kind: 3,
        payload: Vec::new(),
    });
    stream.pools[0].payload = vec![0; size - stream.size()];
    stream.to_bytes()
}

#[test]
fn a_file_may_have_0xe00000_bytes() {
    assert_eq!(numbers(&of_size(MAX_SIZE)), []);
    assert!(numbers(&of_size(MAX_SIZE + 1)).contains(&8));
}

#[test]
fn short_files_are_all_there() {
    let (mut files, mut up_to_two) = (0u64, BTreeSet::new());
    let mut survey = Survey::default();
    short::for_each(|file| {
        files += 1;
        if files <= 65_793 {
            assert!(file.len() <= 2 && up_to_two.insert(file.to_vec()));
            assert_eq!(numbers(file), [1]);
        } else if files % 16 == 0 {
            let _ = survey.ask(file);
        }
    });
    assert_eq!(up_to_two.len(), 65_793);
    assert!(files > 3_000_000, "{files}");
    assert!(survey.accepted > 0);
}
