//! The boundary generator tries each limit of the sheet and what lies one beyond it. The limits stand here in figures.

use crate::numbers;
use differential::generators::boundary;
use differential::model::{Card, Operation, Pool, Stream};
use differential::rng::Rng;
use std::collections::BTreeSet;

const TRIED: u32 = 100_000;

/// One empty frame, a small pool of each kind, and in version 4 a card with a bulk range and one without.
fn base(version: u8) -> Stream {
    let pool = |kind, size| Pool {
        kind,
        payload: vec![0; size],
    };
    let mut pools = vec![pool(1, 256), pool(2, 4), pool(3, 4)];
    pools.truncate(if version == 2 { 2 } else { 3 });
    let card = |slot, bulk_length| Card {
        slot,
        name_length: 1,
        bulk_start: 0x100,
        bulk_length,
        ..Card::default()
    };
    let mut cards = vec![card(0, 0x100), card(7, 0)];
    cards.truncate(if version == 4 { 2 } else { 0 });
    Stream {
        cards,
        pools,
        ..Stream::empty_frame(version)
    }
}

/// What the generator makes of the base of a version, with the original's verdict.
fn each(version: u8, mut visit: impl FnMut(&Stream, bool)) {
    let mut rng = Rng::new(u64::from(version));
    let base = base(version);
    for _ in 0..TRIED {
        let mut stream = base.clone();
        boundary::set(&mut rng, &mut stream);
        visit(&stream, numbers(&stream.to_bytes()).is_empty());
    }
}

/// An operation that was tried.
#[derive(Clone, Copy, Debug, PartialEq, Eq, PartialOrd, Ord)]
struct Tried {
    opcode: u8,
    target: u8,
    first: u32,
    /// The first address behind it.
    end: u64,
    accepted: bool,
}

fn operations(version: u8) -> BTreeSet<Tried> {
    let mut seen = BTreeSet::new();
    each(version, |stream, accepted| {
        let mut all = stream.opening.iter().chain(stream.frames.iter().flatten());
        let Some(operation) = all.next() else { return };
        let (opcode, target, first, length) = match *operation {
            Operation::Write {
                target, address, ..
            } => (0, target, address, 1),
            Operation::Fill {
                target,
                address,
                length,
                ..
            } => (1, target, address, length),
            Operation::Copy {
                target,
                address,
                length,
                ..
            } => (2, target, address, length),
        };
        seen.insert(Tried {
            opcode,
            target,
            first,
            end: u64::from(first) + u64::from(length),
            accepted,
        });
    });
    seen
}

/// The last address that a target takes was tried and accepted, the next tried, and nothing beyond accepted.
fn assert_limit(seen: &BTreeSet<Tried>, opcode: u8, target: u8, last: u64) {
    let mut same = seen.iter().copied().collect::<Vec<_>>();
    same.retain(|tried| (tried.opcode, tried.target) == (opcode, target));
    let what = format!("opcode {opcode} target {target} {last:x}");
    let at = |end, accepted| same.iter().any(|t| (t.end, t.accepted) == (end, accepted));
    assert!(at(last + 1, true) && at(last + 2, false), "{what}");
    let beyond = same.iter().find(|t| t.end > last + 1 && t.accepted);
    assert_eq!(beyond, None, "{what}");
}

#[test]
fn write_limits() {
    let limits: [&[(u8, u64)]; 4] = [
        &[(0, 0x8ff), (1, 0x8ff), (2, 0xf_ffff)],
        &[(0, 0x8ff), (1, 0x8ff), (2, 0xf_ffff)],
        &[(0, 0x8ff), (1, 0x8ff), (2, 0xf_ffff), (3, 0x1ff_ffff)],
        &[(1, 0x8ff), (2, 0xf_ffff), (3, 0x1ff_ffff), (11, 0x3f)],
    ];
    for (version, limits) in (1..).zip(limits) {
        let seen = operations(version);
        for (target, last) in limits {
            assert_limit(&seen, 0, *target, *last);
        }
    }
}

#[test]
fn fill_and_copy_limits() {
    let limits: [&[(u8, u64)]; 3] = [
        &[(0, 0x7ff), (1, 0x7ff), (2, 0xf_ffff)],
        &[(0, 0x7ff), (1, 0x7ff), (2, 0xf_ffff), (3, 0x3f_ffff)],
        &[(0, 0x7ff), (1, 0x7ff), (2, 0xf_ffff), (3, 0x1ff)],
    ];
    for (version, limits) in (2..).zip(limits) {
        let seen = operations(version);
        for (target, last) in limits {
            assert_limit(&seen, 1, *target, *last);
            assert_limit(&seen, 2, *target, *last);
        }
        let no_length = |tried: &Tried| u64::from(tried.first) == tried.end;
        let wraps = |tried: &Tried| tried.end > u64::from(u32::MAX);
        assert!(seen.iter().any(no_length) && seen.iter().any(wraps));
        let accepted = |tried: &&Tried| tried.accepted && (no_length(tried) || wraps(tried));
        assert_eq!(seen.iter().find(accepted), None);
    }
}

/// The first address of a card's range, and targets without one.
#[test]
fn bulk_ranges() {
    let seen = operations(4);
    let fill = |first, accepted| {
        seen.iter()
            .any(|t| (t.opcode, t.target, t.first, t.accepted) == (1, 3, first, accepted))
    };
    assert!(fill(0x100, true) && fill(0xff, false) && !fill(0xff, true));
    for target in [10, 11] {
        let mut bulk = seen.iter().filter(|t| t.opcode > 0 && t.target == target);
        assert!(bulk.clone().count() > 0 && bulk.all(|t| !t.accepted));
    }
}

#[test]
fn pool_limits() {
    let good = [(1, 256), (2, 1), (2, 257), (3, 255)];
    let bad = [(0, 1), (1, 255), (1, 257), (2, 0), (3, 0), (4, 1)];
    for version in 2..=4 {
        let mut seen = BTreeSet::new();
        each(version, |stream, accepted| {
            let changed = stream.pools.iter().zip(base(version).pools);
            for (pool, _) in changed.filter(|(pool, old)| *pool != old) {
                seen.insert((pool.kind, pool.payload.len(), accepted));
            }
        });
        for (kind, size) in good {
            let accepted = kind < 3 || version > 2;
            assert!(seen.contains(&(kind, size, accepted)), "{kind} {size}");
        }
        for (kind, size) in bad {
            let tried = [false, true].map(|accepted| seen.contains(&(kind, size, accepted)));
            assert_eq!(tried, [true, false], "{kind} {size}");
        }
    }
}

/// Which cards were tried, as a number of what is asked for, with the verdict.
fn cards(number: impl Fn(&[Card]) -> u32) -> BTreeSet<(u32, bool)> {
    let mut seen = BTreeSet::new();
    each(4, |stream, accepted| {
        if stream.cards != base(4).cards {
            seen.insert((number(&stream.cards), accepted));
        }
    });
    seen
}

/// `good` numbers were tried and accepted, `bad` ones tried and never accepted.
fn assert_cards(number: impl Fn(&[Card]) -> u32, good: &[u32], bad: &[u32]) {
    let seen = cards(number);
    for value in good {
        assert!(seen.contains(&(*value, true)), "{value:x}");
    }
    for value in bad {
        let tried = [false, true].map(|accepted| seen.contains(&(*value, accepted)));
        assert_eq!(tried, [true, false], "{value:x}");
    }
}

#[test]
fn card_limits() {
    let second = |card: fn(&Card) -> u32| move |cards: &[Card]| card(&cards[1]);
    assert_cards(
        second(|card| u32::from(card.slot)),
        &[1, 6, 7],
        &[0, 8, 255],
    );
    let length = second(|card| u32::from(card.name_length));
    assert_cards(length, &[1, 16], &[0, 17]);
    let end = second(|card| card.name_offset.wrapping_add(u32::from(card.name_length)));
    assert_cards(end, &[0x200_0000], &[0x200_0001]);
    let end = second(|card| card.bulk_start.wrapping_add(card.bulk_length));
    assert_cards(end, &[0x200_0000], &[0x200_0001]);
    let padding = second(|card| u32::from(card.name[15]));
    assert_cards(padding, &[0], &[1]);
}
