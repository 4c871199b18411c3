//! What the original says about a file: its verdict, its writes vsync by vsync, its repacking; and the pitches of its compiler.

pub mod messages;
pub mod survey;

// The module tree that the original expects around itself. Its song compiler is compiled and never run.
pub(crate) mod devices {
    pub mod sgu {
        pub mod s3w2;
    }
}
#[allow(dead_code, clippy::enum_variant_names)]
mod music {
    pub mod project;
    pub mod stream;
}
pub(crate) mod wav;

use crate::model::fields::number;
use devices::sgu::s3w2::{Cores, Recording, S3w2Sound};
use music::stream::{self, StreamPlayer};
use std::cell::RefCell;
use std::rc::Rc;

pub use devices::sgu::s3w2::{Tally, Write};
pub use music::stream::CardRequirement;

/// Wave sources by core and channel.
pub type WaveSources = [[Option<u16>; 8]; 2];

/// What the original tells about a file that it accepts.
#[derive(Clone, Debug, PartialEq, Eq)]
pub struct Accepted {
    /// Format version, 1 to 4.
    pub version: u8,
    /// Frames in one pass.
    pub frame_count: u32,
    /// Whether frame 1 follows the last frame.
    pub repeats: bool,
    /// Frame period in cycles; 0 is one frame a vsync.
    pub frame_period: u32,
    /// Whether an operation has target 11.
    pub uses_si22: bool,
    /// Version 4's cards.
    pub cards: Vec<CardRequirement>,
    /// The pools in the order of their ids, as `pool_payload` shows them.
    pub pools: Vec<Pool>,
}

/// A pool as `pool_payload` shows it.
#[derive(Clone, Copy, Debug, PartialEq, Eq)]
pub struct Pool {
    /// 1 wave, 2 PCM, 3 card.
    pub kind: u8,
    /// Bytes of payload.
    pub size: usize,
}

/// A file that the original accepts.
pub struct Judged(StreamPlayer);

/// `from_bytes` and nothing else; a refusal with the original's message.
pub fn judge(file: &[u8]) -> Result<Judged, String> {
    let player = StreamPlayer::from_bytes(file).map_err(|error| error.to_string())?;
    Ok(Judged(player))
}

impl Judged {
    /// All that the original tells.
    pub fn accepted(&self) -> Accepted {
        let player = &self.0;
        let pools = (0..=u16::MAX)
            .map_while(|id| player.pool_payload(id))
            .map(|(kind, payload)| Pool {
                kind,
                size: payload.len(),
            })
            .collect();
        Accepted {
            version: player.version(),
            frame_count: player.frame_count(),
            repeats: player.repeats(),
            frame_period: player.frame_period(),
            uses_si22: player.uses_si22(),
            cards: player.card_requirements().to_vec(),
            pools,
        }
    }

    /// Kind and payload of a pool.
    pub fn pool_payload(&self, id: u16) -> Option<(u8, &[u8])> {
        self.0.pool_payload(id)
    }
}

/// The verdict of `from_bytes`, a refusal with the original's message.
pub fn verdict(file: &[u8]) -> Result<Accepted, String> {
    judge(file).map(|judged| judged.accepted())
}

/// The writes of one vsync.
///
/// The original hands device writes (targets 3 to 11) over in a list of their own, so their order against the others is
/// not known.
#[derive(Clone, Debug, Default, PartialEq, Eq)]
pub struct Vsync {
    /// Writes to both cores and PCM memory in order; a PCM write, two calls in the original, is one write to target 2.
    pub writes: Vec<Write>,
    /// Writes to targets 3 to 11 in their own order.
    pub device_writes: Vec<Write>,
}

/// The original's player with cores that record.
pub struct Player {
    stream: StreamPlayer,
    cores: Cores,
    recording: Rc<RefCell<Recording>>,
}

impl Player {
    /// Starts a file.
    pub fn new(file: &[u8]) -> Result<Self, String> {
        let Judged(stream) = judge(file)?;
        let (cores, recording) = S3w2Sound::recording();
        Ok(Self {
            stream,
            cores,
            recording,
        })
    }

    /// Plays one vsync into `vsync`, whose memory is used again.
    ///
    /// # Panics
    /// If the original fails on a file that it accepted, or gives a PCM write to one core only. Neither is known to happen.
    pub fn advance_vsync(&mut self, vsync: &mut Vsync) {
        advance(&mut self.stream, &self.cores);
        self.recording.borrow_mut().take(&mut vsync.writes);
        vsync.device_writes = self.stream.take_card_writes();
    }

    /// Whether the closing writes were given.
    pub fn is_finished(&self) -> bool {
        self.stream.is_finished()
    }

    /// Frames played in this pass.
    pub fn frame_index(&self) -> u32 {
        self.stream.frame_index()
    }

    /// The place that its reader has reached: between vsyncs that of the next frame's count, or the file's end.
    pub fn cursor(&self) -> usize {
        self.stream.cursor()
    }

    /// The wave pool last copied to a channel of a core.
    pub fn wave_source(&self, core: usize, channel: usize) -> Option<u16> {
        self.stream.wave_source(core, channel)
    }

    /// All wave sources.
    pub fn wave_sources(&self) -> WaveSources {
        std::array::from_fn(|core| std::array::from_fn(|channel| self.wave_source(core, channel)))
    }

    /// Kind and payload of a pool.
    pub fn pool_payload(&self, id: u16) -> Option<(u8, &[u8])> {
        self.stream.pool_payload(id)
    }
}

/// The original's player with cores that count: what a benchmark runs.
pub struct CountingPlayer {
    stream: StreamPlayer,
    cores: Cores,
    device_writes: u64,
}

impl CountingPlayer {
    /// Starts a file.
    pub fn new(file: &[u8]) -> Result<Self, String> {
        let Judged(stream) = judge(file)?;
        Ok(Self {
            stream,
            cores: S3w2Sound::counting(),
            device_writes: 0,
        })
    }

    /// Plays one vsync.
    ///
    /// # Panics
    /// If the original fails on a file that it accepted.
    pub fn advance_vsync(&mut self) {
        advance(&mut self.stream, &self.cores);
        self.device_writes += self.stream.take_card_writes().len() as u64;
    }

    /// Whether the closing writes were given.
    pub fn is_finished(&self) -> bool {
        self.stream.is_finished()
    }

    /// Frames played in this pass.
    pub fn frame_index(&self) -> u32 {
        self.stream.frame_index()
    }

    /// The calls that each core got; a PCM write is a call to both.
    pub fn tallies(&self) -> [Tally; 2] {
        self.cores
            .each_ref()
            .map(|core| core.borrow().tally().unwrap_or_default())
    }

    /// Writes to targets 3 to 11.
    pub fn device_writes(&self) -> u64 {
        self.device_writes
    }
}

/// The place of each frame's count, as the original's reader reaches it. One pass is played for them.
///
/// # Errors
/// The original's message, if it refuses the file.
///
/// # Panics
/// If the original fails on a file that it accepted.
pub fn frame_places(file: &[u8]) -> Result<Vec<usize>, String> {
    let Judged(mut stream) = judge(file)?;
    let (cores, frames) = (S3w2Sound::counting(), stream.frame_count());
    let place = |_| {
        let place = stream.cursor();
        advance(&mut stream, &cores);
        stream.take_card_writes();
        place
    };
    Ok((0..frames).map(place).collect())
}

fn advance(stream: &mut StreamPlayer, cores: &Cores) {
    stream
        .advance_vsync(cores)
        .expect("the original plays what it accepts");
}

/// The repacking half of `compile_song_v2`.
///
/// It trusts its input, which in the original is its own compiler's output. With a file that [`verdict`] refuses it can
/// give a file, fail, panic, or ask for memory by a count in the header: see [`asks_for_too_much`].
pub fn repack(master: &[u8]) -> Result<Vec<u8>, String> {
    stream::repack(master.to_vec()).map_err(|error| error.to_string())
}

/// `frequency` without a base note: the pitch register of a note and a shift. It takes any numbers.
pub fn frequency(note: u8, semitones: i8) -> u16 {
    stream::note_frequency(note, semitones)
}

/// Whether a count in the header makes [`repack`] reserve memory for more items than the file can hold, up to 103 GB.
pub fn asks_for_too_much(master: &[u8]) -> bool {
    let count = |at| master.get(at..at + 4).map_or(0, number) as usize;
    count(8) > master.len() || count(12) > master.len()
}
