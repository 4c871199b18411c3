//! A script: vsync calls and jumps of one player, with their answers, and the library held to it.

use super::pass::Waves;
use super::player::Situation;
use sgub::{Refusal, StreamPlayer, WriteRecord};

/// What a record holds before a call: no write of any file.
const UNTOUCHED: WriteRecord = WriteRecord {
    target: 0xEE,
    address: 0xEEEE_EEEE,
    value: 0xEE,
};

/// Two files with their indexes, and the steps of the first one's player.
#[derive(Clone, Debug)]
pub struct Script {
    /// The player's own file, and another.
    pub files: [Vec<u8>; 2],
    /// The index of each; empty for a file that is refused.
    pub indexes: [Vec<u8>; 2],
    /// The steps.
    pub steps: Vec<Step>,
}

/// A call and its answer.
#[derive(Clone, Debug)]
pub struct Step {
    /// What is lent as the file.
    pub file: Lent,
    /// Which call.
    pub call: Call,
    /// What the player had done before.
    pub situation: Situation,
    /// The answer.
    pub answer: Answer,
}

/// Which call.
#[derive(Clone, Copy, Debug)]
pub enum Call {
    /// A vsync call with so many records.
    Vsync(usize),
    /// A jump with an index to a frame.
    Jump(Lent, u32),
}

/// One of the two files, or of the two indexes, as it is lent.
#[derive(Clone, Copy, Debug, PartialEq, Eq)]
pub struct Lent {
    /// Which of the two.
    pub which: usize,
    /// So many bytes of it; behind its own stand zeros.
    pub length: usize,
    /// A place and the byte that stands there instead.
    pub change: Option<(usize, u8)>,
}

/// What a call answers, and what the player tells of itself behind it.
#[derive(Clone, Debug, PartialEq, Eq)]
pub struct Answer {
    /// The refusal.
    pub refusal: Option<Refusal>,
    /// The records that are written.
    pub records: Vec<WriteRecord>,
    /// Whether the vsync is complete.
    pub is_complete: bool,
    /// Whether the player is finished.
    pub is_finished: bool,
    /// Frames begun.
    pub frames: u32,
    /// The wave sources.
    pub waves: Waves,
}

impl Lent {
    /// One of the two, as it stands.
    pub fn whole(which: usize, bytes: &[u8]) -> Self {
        Self {
            which,
            length: bytes.len(),
            change: None,
        }
    }

    /// The bytes that are lent.
    pub fn bytes(self, both: &[Vec<u8>; 2]) -> Vec<u8> {
        let mut bytes = both[self.which].clone();
        bytes.resize(self.length, 0);
        if let Some((place, value)) = self.change {
            bytes[place] = value;
        }
        bytes
    }
}

impl Script {
    /// Holds the library to the script. Of a player whose file is refused nothing is held here: the wrapper gives none.
    ///
    /// # Errors
    /// The first step that the library answers otherwise.
    pub fn hold(&self) -> Result<(), String> {
        let Ok(mut player) = StreamPlayer::start(&self.files[0]) else {
            return Ok(());
        };
        for (number, step) in (1..).zip(&self.steps) {
            let before = player.clone();
            let answer = self.take(&mut player, step);
            let answer =
                answer.map_err(|text| format!("step {number} of {}: {text}", self.steps.len()))?;
            if answer != step.answer {
                let expected = &step.answer;
                let call = (step.file, step.call, step.situation);
                return Err(format!(
                    "step {number}, {call:?}: library {answer:?}, expected {expected:?}"
                ));
            }
            if answer.refusal.is_some() && player != before {
                return Err(format!("step {number} is refused and changes the player"));
            }
        }
        Ok(())
    }

    /// What the library answers.
    fn take(&self, player: &mut StreamPlayer, step: &Step) -> Result<Answer, String> {
        let file = step.file.bytes(&self.files);
        let mut records = Vec::new();
        let told = match step.call {
            Call::Vsync(room) => {
                records.resize(room, UNTOUCHED);
                let told = player.advance_vsync(&file, &mut records);
                let count = told.map_or(0, |vsync| vsync.count);
                if records.drain(count..).any(|record| record != UNTOUCHED) {
                    return Err("a record behind the writes is touched".into());
                }
                told.map(|vsync| vsync.complete)
            }
            Call::Jump(index, frame) => {
                let index = index.bytes(&self.indexes);
                let told = player.jump_to_frame(&file, &index, frame);
                told.map(|()| false)
            }
        };
        Ok(Answer {
            refusal: told.err(),
            records,
            is_complete: told.unwrap_or(false),
            is_finished: player.is_finished(),
            frames: player.frame_index(),
            waves: std::array::from_fn(|whose| player.wave_source(whose / 8, whose % 8)),
        })
    }
}
