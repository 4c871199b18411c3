//! One operation, card, pool or period at or beside a limit of the sheet, in a stream that is else accepted.

use super::limits;
use crate::model::{Card, FIRST_SLOT, Operation, PCM, SI22, SLOT_SPACE, Stream};
use crate::rng::Rng;

/// Changes one thing in `stream`. Some of the results are accepted: they lie at the limit, not beyond.
pub fn set(rng: &mut Rng, stream: &mut Stream) {
    match (stream.version, rng.below(8)) {
        (4, 0) => stream.period = rng.pick(limits::PERIODS),
        (4, 1 | 2) => card(rng, stream),
        (2.., 3) if !stream.pools.is_empty() => pool(rng, stream),
        _ => insert_operation(rng, stream),
    }
}

/// `value`, one less or one more.
fn beside(rng: &mut Rng, value: u32) -> u32 {
    value.wrapping_add(rng.below(3)).wrapping_sub(1)
}

fn card(rng: &mut Rng, stream: &mut Stream) {
    if stream.cards.is_empty() || rng.one_in(8) {
        let mut name = [0; 16];
        name[0] = rng.byte();
        stream.cards.push(Card {
            slot: rng.below(8) as u8,
            name_length: 1,
            name,
            ..Card::default()
        });
    }
    let index = rng.index(stream.cards.len());
    let before = stream.cards[..index].last().map_or(0, |card| card.slot);
    let card = &mut stream.cards[index];
    match rng.below(6) {
        0 => card.slot = rng.pick(limits::SLOTS) as u8,
        1 => card.slot = beside(rng, u32::from(before)) as u8,
        2 => card.name_length = rng.pick(limits::NAME_LENGTHS) as u8,
        3 => card.name[rng.index(16)] = rng.below(2) as u8,
        4 => {
            let highest = SLOT_SPACE.wrapping_sub(u32::from(card.name_length));
            card.name_offset = either(rng, highest, limits::ADDRESSES);
        }
        _ => {
            card.bulk_start = rng.pick(limits::ADDRESSES);
            let longest = SLOT_SPACE.wrapping_sub(card.bulk_start);
            card.bulk_length = either(rng, longest, limits::LENGTHS);
        }
    }
}

/// A value beside `limit`, or one of a list.
fn either(rng: &mut Rng, limit: u32, list: &[u32]) -> u32 {
    if rng.one_in(2) {
        beside(rng, limit)
    } else {
        rng.pick(list)
    }
}

/// Another kind, or another size with a payload of that size. Sizes too large to be at hand are a matter of single fields.
fn pool(rng: &mut Rng, stream: &mut Stream) {
    let index = rng.index(stream.pools.len());
    let pool = &mut stream.pools[index];
    pool.kind = rng.pick(limits::KINDS) as u8;
    if rng.one_in(2) {
        let size = rng.pick(&[0, 1, 255, 256, 257, 512]);
        pool.payload.resize(size, 0x55);
    }
}

/// Puts an operation somewhere into the opening or a frame.
fn insert_operation(rng: &mut Rng, stream: &mut Stream) {
    let operation = operation(rng, stream);
    let part = if stream.frames.is_empty() || rng.one_in(3) {
        &mut stream.opening
    } else {
        let frame = rng.index(stream.frames.len());
        &mut stream.frames[frame]
    };
    part.insert(rng.index(part.len() + 1), operation);
}

fn operation(rng: &mut Rng, stream: &Stream) -> Operation {
    let target = target(rng, stream);
    match if stream.version == 1 { 0 } else { rng.below(4) } {
        0 => {
            let address = address(rng, stream, stream.write_space(target));
            Operation::write(target, address, rng.byte())
        }
        1 => {
            let (address, end) = destination(rng, stream, target);
            Operation::Fill {
                target,
                address,
                length: length(rng, address, end),
                value: rng.byte(),
            }
        }
        2 if !stream.pools.is_empty() => fitting_copy(rng, stream),
        _ => any_copy(rng, stream, target),
    }
}

/// An address beside either end of a target's bulk range or at any limit, and the range's end.
fn destination(rng: &mut Rng, stream: &Stream, target: u8) -> (u32, u32) {
    let (start, end) = stream.bulk_range(target).unwrap_or((0, SLOT_SPACE));
    let near = rng.pick(&[start, start, end]);
    (address(rng, stream, near), end)
}

/// A COPY with each number at some limit. Few are accepted.
fn any_copy(rng: &mut Rng, stream: &Stream, target: u8) -> Operation {
    let (address, end) = destination(rng, stream, target);
    let pool = pool_id(rng, stream);
    let size = stream.pools.get(usize::from(pool));
    let size = size.map_or(256, |pool| pool.payload.len() as u32);
    let source = either(rng, 0, limits::LENGTHS);
    let (from, limit) = rng.pick(&[(address, end), (source, size)]);
    Operation::Copy {
        target,
        address,
        pool,
        source,
        length: length(rng, from, limit),
    }
}

/// A COPY of a whole pool to an end of the range that takes its kind, or with one number a step off.
fn fitting_copy(rng: &mut Rng, stream: &Stream) -> Operation {
    let pool = rng.index(stream.pools.len());
    let target = match (stream.pools[pool].kind, stream.cards.as_slice()) {
        (1, _) => rng.below(2) as u8,
        (2, _) => PCM,
        (_, []) => FIRST_SLOT,
        (_, cards) => FIRST_SLOT + rng.pick(cards).slot,
    };
    let size = stream.pools[pool].payload.len() as u32;
    let (start, end) = stream.bulk_range(target).unwrap_or((0, SLOT_SPACE));
    let near = rng.pick(&[start, end.wrapping_sub(size)]);
    let mut numbers = [near, 0, size];
    if !rng.one_in(3) {
        let number = &mut numbers[rng.index(3)];
        *number = number.wrapping_add_signed(rng.pick(&[-256, -1, 1, 256]));
    }
    let [address, source, length] = numbers;
    Operation::Copy {
        target,
        address: as_written(stream, address),
        pool: pool as u16,
        source,
        length,
    }
}

/// An address beside `near` or at any limit.
fn address(rng: &mut Rng, stream: &Stream, near: u32) -> u32 {
    let address = either(rng, near, limits::ADDRESSES);
    as_written(stream, address)
}

/// What is left of an address in as many bytes as the version has.
fn as_written(stream: &Stream, address: u32) -> u32 {
    if stream.version <= 2 {
        address & 0xff_ffff
    } else {
        address
    }
}

/// Mostly a target that exists, or one with a card.
fn target(rng: &mut Rng, stream: &Stream) -> u8 {
    match rng.below(4) {
        0 => rng.pick(limits::TARGETS) as u8,
        1 if stream.version == 4 => match stream.cards.as_slice() {
            [] => SI22,
            cards => FIRST_SLOT + rng.pick(cards).slot,
        },
        _ if stream.version == 3 => rng.below(4) as u8,
        _ => rng.below(3) as u8,
    }
}

/// A length whose last byte lies beside the limit, one whose sum passes 2^32, or one of the list.
fn length(rng: &mut Rng, from: u32, limit: u32) -> u32 {
    match rng.below(4) {
        0 | 1 => beside(rng, limit.wrapping_sub(from)),
        2 => beside(rng, 0u32.wrapping_sub(from)),
        _ => rng.pick(limits::LENGTHS),
    }
}

/// An id that the file has, the first that it does not have, or the greatest.
fn pool_id(rng: &mut Rng, stream: &Stream) -> u16 {
    let count = stream.pools.len() as u32;
    match rng.below(8) {
        0 => u16::MAX,
        1 => count as u16,
        _ => rng.below(count.max(1)) as u16,
    }
}
