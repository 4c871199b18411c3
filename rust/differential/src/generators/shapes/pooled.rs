//! Versions 2 to 4: operations, pools and cards that are accepted.

use super::Shape;
use crate::generators::limits;
use crate::model::{
    Card, FIRST_SLOT, Operation, PCM, PCM_MEMORY, Pool, SI22, SLOT_SPACE, Stream, V3_BULK, WAVE,
};
use crate::rng::Rng;

/// The kinds of pools.
pub(super) const WAVE_POOL: u8 = 1;
pub(super) const PCM_POOL: u8 = 2;
const CARD_POOL: u8 = 3;

/// The longest FILL or COPY of a shape that is not about limits: such a file is quickly played.
const SHORT: u32 = 32;

pub(super) fn draw(shape: Shape, rng: &mut Rng, stream: &mut Stream) {
    tables(shape, rng, stream);
    if shape != Shape::NoOpening {
        let count = rng.below(5);
        for _ in 0..count {
            let operation = operation(shape, rng, stream);
            stream.opening.push(operation);
        }
    }
    let (frames, operations) = match shape {
        Shape::EmptyFrames => (6, 0),
        Shape::ManyFrames => (800, 1),
        Shape::Copies | Shape::Limits => (3, 8),
        _ => (4, 4),
    };
    for _ in 0..rng.between(1, frames) {
        let count = rng.below(operations + 1);
        let frame = (0..count).map(|_| operation(shape, rng, stream)).collect();
        stream.frames.push(frame);
    }
}

fn tables(shape: Shape, rng: &mut Rng, stream: &mut Stream) {
    if stream.version == 4 {
        let most = if shape == Shape::Cards { 8 } else { 2 };
        cards(rng, stream, most);
    }
    let pools = match shape {
        Shape::Pools => rng.between(8, 60),
        Shape::Copies => rng.between(1, 6),
        Shape::BigPool => {
            big_pool(rng, stream);
            0
        }
        _ => rng.below(3),
    };
    for _ in 0..pools {
        let pool = pool(rng, stream.version);
        stream.pools.push(pool);
    }
}

/// Up to `most` cards in rising slots.
fn cards(rng: &mut Rng, stream: &mut Stream, most: u32) {
    let count = rng.below(most + 1);
    let mut slots = 0u8;
    while slots.count_ones() < count {
        slots |= 1 << rng.below(8);
    }
    for slot in (0..8).filter(|slot| slots >> slot & 1 == 1) {
        stream.cards.push(card(rng, slot));
    }
}

fn card(rng: &mut Rng, slot: u8) -> Card {
    let name_length = rng.between(1, 16) as u8;
    let mut name = [0; 16];
    rng.fill(&mut name[..usize::from(name_length)]);
    let highest = SLOT_SPACE - u32::from(name_length);
    let name_offset = match rng.below(4) {
        0 => 0,
        1 => highest,
        _ => rng.below(highest),
    };
    let (bulk_start, bulk_length) = match rng.below(4) {
        0 => (rng.below(SLOT_SPACE + 1), 0),
        1 => (0, SLOT_SPACE),
        _ => span(rng, (0, SLOT_SPACE), 0x2000),
    };
    Card {
        slot,
        name_length,
        name,
        name_offset,
        bulk_start,
        bulk_length,
    }
}

/// A small pool of a kind that the version has.
fn pool(rng: &mut Rng, version: u8) -> Pool {
    let kinds = if version == 2 { 2 } else { 3 };
    let kind = rng.between(1, kinds) as u8;
    let size = match kind {
        WAVE_POOL => WAVE,
        _ if rng.one_in(4) => rng.between(255, 257),
        _ => rng.between(1, 40),
    };
    filled_pool(rng, kind, size)
}

pub(super) fn filled_pool(rng: &mut Rng, kind: u8, size: u32) -> Pool {
    let mut payload = vec![0; size as usize];
    rng.fill(&mut payload);
    Pool { kind, payload }
}

/// A pool of the greatest size. Version 4's card pools may be longer than a file: one byte more than version 3's is taken.
fn big_pool(rng: &mut Rng, stream: &mut Stream) {
    let (kind, size) = match stream.version {
        3 if rng.one_in(2) => (CARD_POOL, V3_BULK),
        4 if rng.one_in(2) => (CARD_POOL, V3_BULK + 1),
        _ => (PCM_POOL, PCM_MEMORY),
    };
    let pool = filled_pool(rng, kind, size);
    stream.pools.push(pool);
}

/// An operation that is accepted in this stream.
fn operation(shape: Shape, rng: &mut Rng, stream: &Stream) -> Operation {
    let copies = match shape {
        Shape::Copies | Shape::Pools | Shape::BigPool => 2,
        Shape::Limits => 3,
        _ => 4,
    };
    if !stream.pools.is_empty()
        && rng.one_in(copies)
        && let Some(copy) = copy(shape, rng, stream)
    {
        return copy;
    }
    let fills = if shape == Shape::Limits { 1 } else { 3 };
    let target = target(shape, rng, stream);
    match stream.bulk_range(target) {
        Some(range) if rng.one_in(fills) => {
            let (address, length) = bulk(shape, rng, range, u32::MAX);
            Operation::Fill {
                target,
                address,
                length,
                value: rng.byte(),
            }
        }
        _ => {
            let address = write_address(rng, stream.write_space(target));
            Operation::write(target, address, rng.byte())
        }
    }
}

/// A target that exists.
fn target(shape: Shape, rng: &mut Rng, stream: &Stream) -> u8 {
    if shape == Shape::Si22 && rng.one_in(2) {
        return SI22;
    }
    let targets = match stream.version {
        2 => PCM + 1,
        3 => FIRST_SLOT + 1,
        _ => SI22 + 1,
    };
    loop {
        let target = rng.below(u32::from(targets)) as u8;
        if stream.write_space(target) > 0 {
            return target;
        }
    }
}

fn write_address(rng: &mut Rng, space: u32) -> u32 {
    match rng.below(8) {
        0 => 0,
        1 => space - 1,
        2 => rng.pick(limits::ADDRESSES).min(space - 1),
        _ => rng.below(space),
    }
}

/// A COPY of any pool; `None` where the drawn pool's kind has no place to go.
fn copy(shape: Shape, rng: &mut Rng, stream: &Stream) -> Option<Operation> {
    let id = rng.index(stream.pools.len());
    let pool = &stream.pools[id];
    let size = u32::try_from(pool.payload.len()).ok()?;
    let target = match pool.kind {
        WAVE_POOL => rng.below(2) as u8,
        PCM_POOL => PCM,
        _ if stream.version == 3 => FIRST_SLOT,
        _ if stream.cards.is_empty() => return None,
        _ => FIRST_SLOT + rng.pick(&stream.cards).slot,
    };
    let range = stream.bulk_range(target)?;
    let (address, source, length) = if pool.kind == WAVE_POOL {
        (rng.below(range.1 / WAVE) * WAVE, 0, WAVE)
    } else {
        let (address, length) = bulk(shape, rng, range, size);
        (address, end_or_any(rng, size - length), length)
    };
    Some(Operation::Copy {
        target,
        address,
        pool: u16::try_from(id).ok()?,
        source,
        length,
    })
}

/// Address and length of a FILL or COPY of at most `most` bytes: a short one, or with [`Shape::Limits`] a longer one, but
/// one of millions of writes is rare.
fn bulk(shape: Shape, rng: &mut Rng, range: (u32, u32), most: u32) -> (u32, u32) {
    let reach = match shape {
        Shape::Limits if rng.one_in(64) => u32::MAX,
        Shape::Limits | Shape::BigPool => 0x1000,
        _ => SHORT,
    };
    span(rng, range, reach.min(most))
}

/// First address and length of a part of a range, at most `most` long, at least 1, often at an end of the range.
fn span(rng: &mut Rng, (start, end): (u32, u32), most: u32) -> (u32, u32) {
    let most = most.min(end - start);
    let length = match rng.below(4) {
        0 => most,
        1 => 1,
        _ => rng.between(1, most),
    };
    (start + end_or_any(rng, end - start - length), length)
}

/// A number from 0 to `last`, often one of the two.
fn end_or_any(rng: &mut Rng, last: u32) -> u32 {
    match rng.below(4) {
        0 => 0,
        1 => last,
        _ => rng.between(0, last),
    }
}
