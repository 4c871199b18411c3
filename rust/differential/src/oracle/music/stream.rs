//! The original, compiled as it stands, and beside it three things that its own text does not give out: `repack`, the part of
//! `compile_song_v2` behind its call of `compile_song`, which build.rs cuts out of the same text; `frequency` without a base note; and where
//! its reader stands.
#![allow(clippy::all, dead_code, missing_docs)]

include!("../../../original/stream.rs");
include!(concat!(env!("OUT_DIR"), "/repack.rs"));

/// `frequency` without a base note.
pub(crate) fn note_frequency(note: u8, semitones: i8) -> u16 {
    frequency(note, semitones, None, None)
}

impl StreamPlayer {
    /// The place that its reader has reached.
    pub(crate) fn cursor(&self) -> usize {
        self.cursor
    }
}
