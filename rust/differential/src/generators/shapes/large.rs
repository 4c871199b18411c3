//! Large accepted files for benchmarks, one for each of ten shapes.

use super::pooled::{PCM_POOL, WAVE_POOL, filled_pool};
use super::version_1::{self, Frame, Wave};
use crate::model::{
    CORE_SPACE, Card, FIRST_SLOT, MAX_POOLS, Operation, PCM, PCM_MEMORY, SI22, SI22_SPACE,
    SLOT_SPACE, Stream, WAVE,
};
use crate::rng::Rng;

/// What a large file consists of.
#[derive(Clone, Copy, Debug, PartialEq, Eq)]
pub enum Large {
    /// Version 1: records to cores and PCM.
    V1Records,
    /// Version 1: frames without records.
    V1EmptyFrames,
    /// Version 1: wave uploads, half of them of a wave that was there before.
    V1Waves,
    /// Version 1: an opening with all of PCM memory, then records. A file below 7 MB has less of it.
    V1Pcm,
    /// Version 2: WRITEs.
    V2Writes,
    /// Version 2: COPYs of waves.
    V2WaveCopies,
    /// Version 2: 65,536 pools and COPYs from them. A file below 10 MB has fewer.
    V2Pools,
    /// Version 3: WRITEs.
    V3Writes,
    /// Version 4: WRITEs.
    V4Writes,
    /// Version 4: eight cards, FILLs and WRITEs to them, WRITEs to target 11.
    V4Cards,
}

impl Large {
    /// All ten.
    pub const ALL: [Self; 10] = [
        Self::V1Records,
        Self::V1EmptyFrames,
        Self::V1Waves,
        Self::V1Pcm,
        Self::V2Writes,
        Self::V2WaveCopies,
        Self::V2Pools,
        Self::V3Writes,
        Self::V4Writes,
        Self::V4Cards,
    ];

    fn version(self) -> u8 {
        match self {
            Self::V1Records | Self::V1EmptyFrames | Self::V1Waves | Self::V1Pcm => 1,
            Self::V2Writes | Self::V2WaveCopies | Self::V2Pools => 2,
            Self::V3Writes => 3,
            Self::V4Writes | Self::V4Cards => 4,
        }
    }
}

/// The least size of a large file: it leaves room for the tables and a frame.
pub const LARGE_MIN: usize = 4096;

/// Operations in a frame, but for waves and empty frames.
const PER_FRAME: usize = 16;

/// Bytes of a PCM pool, and the longest FILL.
const SHORT: u32 = 32;

/// An accepted file of at most `bytes` bytes, short of that by less than a frame. The same arguments give the same file.
///
/// # Panics
/// If `bytes` is below [`LARGE_MIN`].
pub fn large(shape: Large, bytes: usize) -> Vec<u8> {
    assert!(bytes >= LARGE_MIN, "{bytes} bytes are too few");
    let rng = &mut Rng::new(shape as u64);
    let stream = &mut Stream::default();
    stream.reset(shape.version());
    match shape {
        Large::V1EmptyFrames => stream.append_frames(bytes, Vec::new),
        Large::V1Waves => waves(rng, stream, bytes),
        Large::V1Pcm => {
            let count = PCM_MEMORY.min((bytes * 3 / 4 / 5) as u32);
            let records = (0..count).map(|address| Operation::write(PCM, address, rng.byte()));
            stream.opening.extend(records);
            stream.append_frames(bytes, || frame(rng, write));
        }
        Large::V2WaveCopies => {
            let count = (bytes / LARGE_MIN).min(256);
            let pools = (0..count).map(|_| filled_pool(rng, WAVE_POOL, WAVE));
            stream.pools.extend(pools);
            let copy = |rng: &mut Rng| {
                let pool = rng.index(count);
                wave_copy(rng, pool)
            };
            stream.append_frames(bytes, || frame(rng, copy));
        }
        Large::V2Pools => pools(rng, stream, bytes),
        Large::V3Writes => stream.append_frames(bytes, || frame(rng, write_or_slot_write)),
        Large::V1Records | Large::V2Writes | Large::V4Writes => {
            stream.append_frames(bytes, || frame(rng, write));
        }
        Large::V4Cards => {
            stream.cards.extend((0..8).map(card));
            stream.append_frames(bytes, || frame(rng, card_operation));
        }
    }
    stream.to_bytes()
}

fn frame(rng: &mut Rng, draw: impl Fn(&mut Rng) -> Operation) -> Frame {
    (0..PER_FRAME).map(|_| draw(rng)).collect()
}

/// A WRITE to a core or, once in eight times, to PCM memory.
fn write(rng: &mut Rng) -> Operation {
    let (target, space) = match rng.below(8) {
        0 => (PCM, PCM_MEMORY),
        n => ((n % 2) as u8, CORE_SPACE),
    };
    Operation::write(target, rng.below(space), rng.byte())
}

fn slot_write(rng: &mut Rng, target: u8) -> Operation {
    Operation::write(target, rng.below(SLOT_SPACE), rng.byte())
}

fn write_or_slot_write(rng: &mut Rng) -> Operation {
    if rng.one_in(4) {
        slot_write(rng, FIRST_SLOT)
    } else {
        write(rng)
    }
}

/// Frames with a wave's 256 records and a few others. Half of the waves are new.
fn waves(rng: &mut Rng, stream: &mut Stream, bytes: usize) {
    let mut waves: Vec<Wave> = Vec::new();
    stream.append_frames(bytes, || {
        if waves.is_empty() || rng.one_in(2) {
            waves.push(version_1::wave(rng));
        }
        let values = rng.pick(&waves);
        let core = rng.below(2) as u8;
        let mut frame = Frame::new();
        version_1::run(&mut frame, core, version_1::channel(rng), &values);
        frame.extend((0..4).map(|_| write(rng)));
        frame
    });
}

fn wave_copy(rng: &mut Rng, pool: usize) -> Operation {
    Operation::Copy {
        target: rng.below(2) as u8,
        address: version_1::channel(rng),
        pool: pool as u16,
        source: 0,
        length: WAVE,
    }
}

/// Pools in half of the file, every eighth a wave and the others short PCM pools, then COPYs.
fn pools(rng: &mut Rng, stream: &mut Stream, bytes: usize) {
    let is_wave = |pool: usize| pool.is_multiple_of(8);
    let count = MAX_POOLS.min(bytes / 2 / 76);
    for pool in 0..count {
        let (kind, size) = if is_wave(pool) {
            (WAVE_POOL, WAVE)
        } else {
            (PCM_POOL, SHORT)
        };
        stream.pools.push(filled_pool(rng, kind, size));
    }
    let copy = |rng: &mut Rng| {
        let pool = rng.index(count);
        if is_wave(pool) {
            return wave_copy(rng, pool);
        }
        Operation::Copy {
            target: PCM,
            address: rng.below(PCM_MEMORY - SHORT),
            pool: pool as u16,
            source: 0,
            length: SHORT,
        }
    };
    stream.append_frames(bytes, || frame(rng, copy));
}

/// Where the bulk range of each card lies in [`Large::V4Cards`].
const BULK: (u32, u32) = (0x1000, 0x10_0000);

fn card(slot: u8) -> Card {
    let mut name = [0; 16];
    name[0] = b'A' + slot;
    Card {
        slot,
        name_length: 1,
        name,
        name_offset: 0,
        bulk_start: BULK.0,
        bulk_length: BULK.1,
    }
}

/// Half of them FILLs of a card, else WRITEs to a card or to target 11.
fn card_operation(rng: &mut Rng) -> Operation {
    let target = FIRST_SLOT + rng.below(8) as u8;
    match rng.below(4) {
        0 => slot_write(rng, target),
        1 => Operation::write(SI22, rng.below(SI22_SPACE), rng.byte()),
        _ => Operation::Fill {
            target,
            address: BULK.0 + rng.below(BULK.1 - SHORT),
            length: rng.between(1, SHORT),
            value: rng.byte(),
        },
    }
}
