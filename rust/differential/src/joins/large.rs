//! Large pieces for the benchmark, a pair of each of which can be joined.

use crate::generators::shapes::{self, Large};
use crate::model::{MAX_POOLS, Operation, PCM, PCM_MEMORY, Pool, Stream, WAVE, WAVE_MEMORY};
use crate::rng::Rng;

/// What a large piece consists of.
#[derive(Clone, Copy, Debug, PartialEq, Eq)]
pub enum Content {
    /// WRITEs, 16 in a frame, and no pool.
    Writes,
    /// 256 waves; in a frame a COPY of one of them and 15 WRITEs.
    WritesAndWaves,
    /// WRITEs, 65,000 in a frame.
    LongFrames,
    /// COPYs of waves, 16 in a frame.
    WaveCopies,
    /// FILLs, 16 in a frame.
    Fills,
    /// Frames without operations.
    EmptyFrames,
    /// Half as many pools as a file may have, and COPYs from them.
    ManyPools,
    /// PCM pools of 1 MiB, and a few frames.
    BigPools,
}

impl Content {
    /// All of them.
    pub const ALL: [Self; 8] = [
        Self::Writes,
        Self::WritesAndWaves,
        Self::LongFrames,
        Self::WaveCopies,
        Self::Fills,
        Self::EmptyFrames,
        Self::ManyPools,
        Self::BigPools,
    ];

    /// In words.
    pub fn name(self) -> &'static str {
        match self {
            Self::Writes => "WRITEs, no pools",
            Self::WritesAndWaves => "WRITEs and some wave COPYs",
            Self::LongFrames => "WRITEs, 65,000 in a frame",
            Self::WaveCopies => "wave COPYs",
            Self::Fills => "FILLs",
            Self::EmptyFrames => "empty frames",
            Self::ManyPools => "32,768 pools, COPYs",
            Self::BigPools => "PCM pools of 1 MiB",
        }
    }
}

/// Waves where there are some.
const WAVES: usize = 256;

/// Operations in a frame, but for long and empty frames.
const PER_FRAME: usize = 16;

/// An accepted file of version 2 of at most so many bytes, of which less than a frame is missing. There have to be 4,000,000. It has a
/// pool, unless it is said to have none.
pub fn piece(content: Content, bytes: usize) -> Vec<u8> {
    let rng = &mut Rng::new(content as u64);
    let mut stream = Stream::empty_frame(2);
    stream.pools.push(pool(rng, WAVE));
    match content {
        Content::Writes => return shapes::large(Large::V2Writes, bytes),
        Content::WaveCopies => return shapes::large(Large::V2WaveCopies, bytes),
        Content::WritesAndWaves => {
            stream.pools = (0..WAVES).map(|_| pool(rng, WAVE)).collect();
            stream.append_frames(bytes, || {
                let mut frame = frame(PER_FRAME, || write(rng));
                let wave = rng.index(WAVES);
                frame[0] = wave_copy(rng, wave);
                frame
            });
        }
        Content::LongFrames => stream.append_frames(bytes, || frame(65_000, || write(rng))),
        Content::Fills => stream.append_frames(bytes, || frame(PER_FRAME, || pcm_fill(rng))),
        Content::EmptyFrames => stream.append_frames(bytes, Vec::new),
        Content::ManyPools => {
            let size = |id: usize| if id.is_multiple_of(8) { WAVE } else { 32 };
            let pools = (0..MAX_POOLS / 2).map(|id| pool(rng, size(id)));
            stream.pools = pools.collect();
            stream.append_frames(bytes, || frame(PER_FRAME, || copy(rng)));
        }
        Content::BigPools => {
            let count = bytes / (PCM_MEMORY as usize + 16);
            stream.pools = (0..count).map(|_| pool(rng, PCM_MEMORY)).collect();
            let rest = bytes - stream.size() - 16;
            stream.pools.push(pool(rng, rest as u32));
        }
    }
    stream.to_bytes()
}

fn frame(count: usize, mut draw: impl FnMut() -> Operation) -> Vec<Operation> {
    (0..count).map(|_| draw()).collect()
}

fn write(rng: &mut Rng) -> Operation {
    Operation::write(rng.below(2) as u8, rng.below(0x900), rng.byte())
}

fn pcm_fill(rng: &mut Rng) -> Operation {
    let length = rng.between(1, 32);
    Operation::fill(PCM, rng.below(PCM_MEMORY - 32), length, rng.byte())
}

/// A wave of a wave's size, else PCM.
fn pool(rng: &mut Rng, size: u32) -> Pool {
    let mut payload = vec![0; size as usize];
    rng.fill(&mut payload);
    let kind = if size == WAVE { 1 } else { 2 };
    Pool { kind, payload }
}

fn wave_copy(rng: &mut Rng, id: usize) -> Operation {
    let address = rng.below(WAVE_MEMORY / WAVE) * WAVE;
    Operation::copy(rng.below(2) as u8, address, id as u16, 0, WAVE)
}

/// A COPY of one of the many pools, of which every eighth is a wave.
fn copy(rng: &mut Rng) -> Operation {
    let id = rng.index(MAX_POOLS / 2);
    if id.is_multiple_of(8) {
        wave_copy(rng, id)
    } else {
        Operation::copy(PCM, rng.below(PCM_MEMORY - 32), id as u16, 0, 32)
    }
}
