//! Stand-in for the reader of sound files. The song compiler names these types and is never run.

use std::fmt;

/// A failure that no one can have.
#[derive(Debug)]
pub enum WaveError {}

impl fmt::Display for WaveError {
    fn fmt(&self, _: &mut fmt::Formatter<'_>) -> fmt::Result {
        match *self {}
    }
}

/// What the song compiler reads out of a sound file.
pub struct Wave {
    pub sample_rate: u32,
    pub channels: u16,
    pub samples: Vec<i16>,
}

/// Only a song asks for a sound file, and no song can be made here.
pub fn read_pcm16_wave(_: &[u8]) -> Result<Wave, WaveError> {
    unreachable!("no song is compiled")
}
