//! Shapes of accepted files, drawn by seed.

mod large;
mod pooled;
mod version_1;

pub use large::{LARGE_MIN, Large, large};

use super::limits;
use crate::model::{PERIODS, Stream};
use crate::rng::Rng;

/// What an accepted file looks like.
#[derive(Clone, Copy, Debug, PartialEq, Eq)]
pub enum Shape {
    /// A few operations of every kind in opening and frames, a few cards and pools.
    Small,
    /// No opening.
    NoOpening,
    /// Frames without operations.
    EmptyFrames,
    /// Hundreds of frames, most of them empty.
    ManyFrames,
    /// A master's frame with 256 records that make a wave.
    WaveWhole,
    /// 255 records: no wave.
    WaveShort,
    /// 256 records and more that do not begin at a multiple of 256; some hold a wave further on.
    WaveShifted,
    /// 256 records, some of them in the next frame: no wave.
    WaveCrossing,
    /// 256 records with one that does not fit: another core, another address, one put between or one left out.
    WaveBroken,
    /// One wave again and again, to any core and channel.
    WaveRepeated,
    /// Waves that share 255 bytes.
    WaveAlike,
    /// Several waves on end without a record between, up to the end of wave memory and beyond it.
    WavePast,
    /// Opening PCM records that run 0, 1, 2 and so on, with core records between.
    PcmOrdered,
    /// Opening PCM records that do not.
    PcmDisordered,
    /// All 1,048,576 bytes of PCM memory in the opening, in order.
    PcmFull,
    /// FILL and COPY that begin or end at a limit of their target, or fill its range.
    Limits,
    /// COPYs from pools of every kind.
    Copies,
    /// Dozens of pools.
    Pools,
    /// A pool of the greatest size that its kind may have.
    BigPool,
    /// Up to eight cards, with operations to them.
    Cards,
    /// Operations to target 11.
    Si22,
}

impl Shape {
    /// All shapes.
    pub const ALL: [Self; 21] = [
        Self::Small,
        Self::NoOpening,
        Self::EmptyFrames,
        Self::ManyFrames,
        Self::WaveWhole,
        Self::WaveShort,
        Self::WaveShifted,
        Self::WaveCrossing,
        Self::WaveBroken,
        Self::WaveRepeated,
        Self::WaveAlike,
        Self::WavePast,
        Self::PcmOrdered,
        Self::PcmDisordered,
        Self::PcmFull,
        Self::Limits,
        Self::Copies,
        Self::Pools,
        Self::BigPool,
        Self::Cards,
        Self::Si22,
    ];

    /// Whether a version has this shape.
    pub fn is_of(self, version: u8) -> bool {
        match self {
            Self::Small | Self::NoOpening | Self::EmptyFrames | Self::ManyFrames => true,
            Self::Limits | Self::Copies | Self::Pools | Self::BigPool => version >= 2,
            Self::Cards | Self::Si22 => version == 4,
            _ => version == 1,
        }
    }

    /// The shapes that a version has.
    pub fn of(version: u8) -> impl Iterator<Item = Self> {
        Self::ALL
            .into_iter()
            .filter(move |shape| shape.is_of(version))
    }

    /// Whether a file of this shape takes a megabyte or more.
    pub fn is_huge(self) -> bool {
        matches!(self, Self::PcmFull | Self::BigPool)
    }

    /// A shape for a file of `version`: mostly a small one, seldom one that is not, hardly ever a huge one.
    pub fn any(version: u8, rng: &mut Rng) -> Self {
        let huge = rng.one_in(1 << 15);
        if !huge && !rng.one_in(16) {
            return rng.pick(&[Self::Small, Self::Small, Self::NoOpening, Self::EmptyFrames]);
        }
        loop {
            let shape = rng.pick(&Self::ALL);
            if shape.is_huge() == huge && shape.is_of(version) {
                return shape;
            }
        }
    }

    /// Makes `stream` an accepted one of this shape.
    ///
    /// # Panics
    /// If `version` does not have this shape.
    pub fn draw(self, version: u8, rng: &mut Rng, stream: &mut Stream) {
        assert!(self.is_of(version), "{self:?} {version}");
        stream.reset(version);
        stream.repeat = rng.one_in(2);
        if version == 1 {
            version_1::draw(self, rng, stream);
        } else {
            if version == 4 {
                stream.period = period(rng);
            }
            pooled::draw(self, rng, stream);
        }
    }
}

fn period(rng: &mut Rng) -> u32 {
    let (low, high) = PERIODS;
    let period = rng.pick(limits::PERIODS);
    if period == 0 || (low..=high).contains(&period) {
        period
    } else {
        rng.between(low, high)
    }
}
