//! Stand-in for songs. The song compiler names these types and is never run: a `Song` holds a `Never`, so none can be made.

use std::fmt;
use std::path::PathBuf;

/// A type without values.
pub enum Never {}

pub struct Song {
    pub never: Never,
    pub tempo_bpm: u16,
    pub ticks_per_row: u8,
    pub repeat: bool,
    pub orders: Vec<u16>,
    pub patterns: Vec<Pattern>,
    pub instruments: Vec<Instrument>,
}

impl Song {
    pub fn validate(&self) -> Result<(), ProjectError> {
        match self.never {}
    }
}

pub struct Pattern {
    pub rows: Vec<Vec<Cell>>,
}

pub struct Cell {
    pub note: Option<Note>,
    pub instrument: Option<u16>,
    pub volume: Option<u8>,
    pub effect: Option<Effect>,
}

#[derive(Clone, Copy)]
pub enum Note {
    On(u8),
    Off,
}

#[derive(Clone, Copy)]
pub enum Effect {
    SetVolume(u8),
    SetPan(u8),
    SetTempo(u16),
}

pub enum Instrument {
    Wavetable {
        samples: Vec<u8>,
        common: Common,
    },
    Pcm {
        path: PathBuf,
        base_note: u8,
        loop_start: Option<usize>,
        common: Common,
    },
    Noise {
        common: Common,
    },
}

/// What every instrument has.
pub struct Common {
    pub volume: u8,
    pub pan: u8,
    pub macro_: Macro,
}

impl Instrument {
    fn common(&self) -> &Common {
        match self {
            Self::Wavetable { common, .. } | Self::Pcm { common, .. } | Self::Noise { common } => {
                common
            }
        }
    }

    pub fn volume_pan(&self) -> (u8, u8) {
        (self.common().volume, self.common().pan)
    }

    pub fn macro_data(&self) -> &Macro {
        &self.common().macro_
    }
}

pub struct Macro {
    pub steps: Vec<MacroStep>,
    pub loop_start: Option<usize>,
}

pub struct MacroStep {
    pub volume: Option<u8>,
    pub pitch_semitones: Option<i8>,
    pub pan: Option<u8>,
}

/// A failure that no one can have.
#[derive(Debug)]
pub enum ProjectError {}

impl fmt::Display for ProjectError {
    fn fmt(&self, _: &mut fmt::Formatter<'_>) -> fmt::Result {
        match *self {}
    }
}
