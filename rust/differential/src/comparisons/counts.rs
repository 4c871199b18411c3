//! How often each outcome of a comparison came.

use super::Outcome;
use super::pairs::Kind;
use sgub::{RefusedFile, Side};
use sgub_cli::Difference;
use std::ops::AddAssign;

/// How often each outcome of a comparison came.
#[derive(Clone, Copy, Debug, Default, PartialEq, Eq)]
pub struct Counts {
    /// Pairs that passed.
    pub passed: u64,
    /// Of those, pairs whose second file is packed otherwise than by the library.
    pub passed_otherwise: u64,
    /// Pairs that failed, by the first difference: repeat, frame count, opening, PCM, frame.
    pub failed: [u64; 5],
    /// Of those, pairs whose difference a listener hears.
    pub heard: u64,
    /// And those where none does.
    pub unheard: u64,
    /// Refused pairs, by side, with 1 to 20 and with 21.
    pub refused: [[u64; 2]; 2],
    /// Pairs that were left out.
    pub too_long: u64,
}

impl Counts {
    /// Counts an outcome.
    pub fn count(&mut self, kind: Kind, outcome: Outcome) {
        match outcome {
            Outcome::Passed => {
                self.passed += 1;
                self.passed_otherwise += u64::from(kind != Kind::Repacked);
            }
            Outcome::Failed(difference, heard) => {
                self.failed[place(difference)] += 1;
                self.heard += u64::from(heard);
                self.unheard += u64::from(!heard);
            }
            Outcome::Refused(RefusedFile { side, refusal }) => {
                let side = usize::from(side == Side::Other);
                self.refused[side][usize::from(refusal.number == 21)] += 1;
            }
            Outcome::TooLong => self.too_long += 1,
        }
    }

    /// What has to occur, in words, with how often it did.
    pub fn rows(&self) -> [(&'static str, u64); 13] {
        let [repeat, frames, opening, pcm, frame] = self.failed;
        let [[master, master_21], [other, other_21]] = self.refused;
        [
            ("passed", self.passed),
            ("  of files packed otherwise", self.passed_otherwise),
            ("failed, repeat", repeat),
            ("failed, frame count", frames),
            ("failed, opening", opening),
            ("failed, PCM memory", pcm),
            ("failed, frame", frame),
            ("  heard by the listeners", self.heard),
            ("  not heard", self.unheard),
            ("refused master, 1-20", master),
            ("refused master, 21", master_21),
            ("refused other, 1-20", other),
            ("refused other, 21", other_21),
        ]
    }

    /// Whether each outcome occurred that has to.
    pub fn all_occurred(&self) -> bool {
        self.rows().iter().all(|(_, count)| *count > 0)
    }

    fn numbers(&mut self) -> [&mut u64; 14] {
        let [repeat, frames, opening, pcm, frame] = &mut self.failed;
        let [[a, b], [c, d]] = &mut self.refused;
        [
            &mut self.passed,
            &mut self.passed_otherwise,
            repeat,
            frames,
            opening,
            pcm,
            frame,
            &mut self.heard,
            &mut self.unheard,
            a,
            b,
            c,
            d,
            &mut self.too_long,
        ]
    }
}

/// The place of a difference among those that are counted.
fn place(difference: Difference) -> usize {
    match difference {
        Difference::Repeat(_) => 0,
        Difference::FrameCount(_) => 1,
        Difference::Opening { .. } => 2,
        Difference::Pcm { .. } => 3,
        Difference::Frame { .. } => 4,
    }
}

impl AddAssign for Counts {
    fn add_assign(&mut self, mut other: Self) {
        for (sum, count) in self.numbers().into_iter().zip(other.numbers()) {
            *sum += *count;
        }
    }
}
