//! A stream as values, written from the format sheet and without the original.
//!
//! Nothing here tests a rule: a stream may hold any values, and [`writer`] writes them as they stand. So the same builder
//! makes files that are accepted and files that break one rule.

pub mod fields;
pub mod reader;
pub mod weight;
pub mod writer;

/// Bytes of a core's wave memory: FILL and COPY stay below.
pub const WAVE_MEMORY: u32 = 0x800;
/// The first address behind a core's registers.
pub const CORE_SPACE: u32 = 0x900;
/// Bytes of PCM memory.
pub const PCM_MEMORY: u32 = 0x10_0000;
/// Bytes of a card slot.
pub const SLOT_SPACE: u32 = 0x200_0000;
/// Where FILL and COPY to version 3's target 3 end.
pub const V3_BULK: u32 = 0x40_0000;
/// The first address behind the registers of target 11.
pub const SI22_SPACE: u32 = 0x40;
/// The target of these registers.
pub const SI22: u8 = 11;
/// The target of PCM memory.
pub const PCM: u8 = 2;
/// The target of slot 0; slot n has the n-th target from here on.
pub const FIRST_SLOT: u8 = 3;
/// The longest file.
pub const MAX_SIZE: usize = 0xe0_0000;
/// The most pools.
pub const MAX_POOLS: usize = 65_536;
/// Bytes of a wave.
pub const WAVE: u32 = 256;
/// The least and the greatest frame period other than 0.
pub const PERIODS: (u32, u32) = (48_000, 48_000_000);

/// A whole file.
#[derive(Clone, Debug, Default, PartialEq, Eq)]
pub struct Stream {
    /// Format version.
    pub version: u8,
    /// Whether frame 1 follows the last frame.
    pub repeat: bool,
    /// Frame period; written in version 4 only.
    pub period: u32,
    /// Cards; written in version 4 only.
    pub cards: Vec<Card>,
    /// Pools; written in versions 2 to 4.
    pub pools: Vec<Pool>,
    /// What the first vsync plays before frame 1.
    pub opening: Vec<Operation>,
    /// The frames.
    pub frames: Vec<Vec<Operation>>,
}

/// A card.
#[derive(Clone, Copy, Debug, Default, PartialEq, Eq)]
pub struct Card {
    /// Slot, 0 to 7.
    pub slot: u8,
    /// Bytes of the name that count, 1 to 16.
    pub name_length: u8,
    /// The name, 0 behind its length.
    pub name: [u8; 16],
    /// Where the card shows its name.
    pub name_offset: u32,
    /// Where its bulk range starts.
    pub bulk_start: u32,
    /// The length of its bulk range; 0 for none.
    pub bulk_length: u32,
}

/// A pool.
#[derive(Clone, Debug, Default, PartialEq, Eq)]
pub struct Pool {
    /// 1 wave, 2 PCM, 3 card.
    pub kind: u8,
    /// Its bytes.
    pub payload: Vec<u8>,
}

/// An operation. Version 1 has WRITEs only, its records.
#[derive(Clone, Copy, Debug, PartialEq, Eq)]
pub enum Operation {
    /// One write.
    Write {
        /// Target.
        target: u8,
        /// Address; versions 1 and 2 write its low 3 bytes.
        address: u32,
        /// Value.
        value: u8,
    },
    /// The same value upward from an address.
    Fill {
        /// Target.
        target: u8,
        /// First address.
        address: u32,
        /// How many writes.
        length: u32,
        /// Value.
        value: u8,
    },
    /// Bytes of a pool upward from an address.
    Copy {
        /// Target.
        target: u8,
        /// First address.
        address: u32,
        /// The pool's id.
        pool: u16,
        /// The first byte within the pool.
        source: u32,
        /// How many writes.
        length: u32,
    },
}

impl Operation {
    /// A WRITE.
    pub const fn write(target: u8, address: u32, value: u8) -> Self {
        Self::Write {
            target,
            address,
            value,
        }
    }

    /// A FILL.
    pub const fn fill(target: u8, address: u32, length: u32, value: u8) -> Self {
        Self::Fill {
            target,
            address,
            length,
            value,
        }
    }

    /// A COPY.
    pub const fn copy(target: u8, address: u32, pool: u16, source: u32, length: u32) -> Self {
        Self::Copy {
            target,
            address,
            pool,
            source,
            length,
        }
    }
}

impl Stream {
    /// One frame without operations, and nothing else.
    pub fn empty_frame(version: u8) -> Self {
        Self {
            version,
            frames: vec![Vec::new()],
            ..Self::default()
        }
    }

    /// Makes this the stream of `version` with nothing in it; memory is kept.
    pub fn reset(&mut self, version: u8) {
        self.version = version;
        self.repeat = false;
        self.period = 0;
        self.cards.clear();
        self.pools.clear();
        self.opening.clear();
        self.frames.clear();
    }

    /// Where FILL and COPY to a target may go: the first address and the first behind; `None` where they may not.
    pub fn bulk_range(&self, target: u8) -> Option<(u32, u32)> {
        match target {
            0 | 1 => Some((0, WAVE_MEMORY)),
            PCM => Some((0, PCM_MEMORY)),
            FIRST_SLOT if self.version == 3 => Some((0, V3_BULK)),
            _ => {
                let card = self.card(target)?;
                let end = card.bulk_start.checked_add(card.bulk_length)?;
                (card.bulk_length > 0).then_some((card.bulk_start, end))
            }
        }
    }

    /// The first address behind those that a WRITE to a target may have; 0 where the target does not exist.
    pub fn write_space(&self, target: u8) -> u32 {
        match target {
            0 | 1 => CORE_SPACE,
            PCM => PCM_MEMORY,
            FIRST_SLOT if self.version == 3 => SLOT_SPACE,
            SI22 if self.version == 4 => SI22_SPACE,
            _ => self.card(target).map_or(0, |_| SLOT_SPACE),
        }
    }

    fn card(&self, target: u8) -> Option<&Card> {
        let is_slot = self.version == 4 && (FIRST_SLOT..SI22).contains(&target);
        let cards = is_slot.then_some(&self.cards)?;
        cards.iter().find(|card| card.slot == target - FIRST_SLOT)
    }
}
