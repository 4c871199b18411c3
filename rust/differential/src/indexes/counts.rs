//! How often each outcome of building an index came.

use super::{Outcome, SPACING};
use std::ops::AddAssign;

/// How often each outcome of building an index came.
#[derive(Clone, Copy, Debug, Default, PartialEq, Eq)]
pub struct Counts {
    /// Accepted files, by version from 1, those that do not repeat first.
    pub accepted: [[u64; 4]; 2],
    /// Of them those with more than one entry.
    pub long: u64,
    /// Their frames.
    pub frames: u64,
    /// Their entries.
    pub entries: u64,
    /// Refused files. 24 is not among them: it is asked for at each index.
    pub refused: u64,
}

impl Counts {
    /// Counts a file with its outcome.
    ///
    /// # Panics
    /// If a file has an index and no header.
    pub fn count(&mut self, file: &[u8], outcome: Outcome) {
        let Outcome::Written(size) = outcome else {
            self.refused += 1;
            return;
        };
        let [version, repeat] = [file[4], file[6]].map(usize::from);
        let frames = u64::from(crate::model::fields::number(&file[8..12]));
        self.accepted[repeat][version - 1] += 1;
        self.long += u64::from(frames > SPACING as u64);
        self.frames += frames;
        self.entries += (size as u64 - 12) / 4;
    }

    /// All accepted files.
    pub fn all_accepted(&self) -> u64 {
        self.accepted.iter().flatten().sum()
    }

    /// Whether each of them occurred, and files of each version, repeating and not.
    pub fn all_occurred(mut self) -> bool {
        self.numbers().iter().all(|number| **number > 0)
    }

    fn numbers(&mut self) -> [&mut u64; 12] {
        let [[a, b, c, d], [e, f, g, h]] = &mut self.accepted;
        let [i, j, k] = [&mut self.long, &mut self.frames, &mut self.entries];
        [a, b, c, d, e, f, g, h, i, j, k, &mut self.refused]
    }
}

impl AddAssign for Counts {
    fn add_assign(&mut self, mut other: Self) {
        for (sum, number) in self.numbers().into_iter().zip(other.numbers()) {
            *sum += *number;
        }
    }
}
