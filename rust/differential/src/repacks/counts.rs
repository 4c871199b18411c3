//! How often each outcome of a repacking came.

use super::Outcome;
use std::ops::AddAssign;

/// How often each outcome of a repacking came.
#[derive(Clone, Copy, Debug, Default, PartialEq, Eq)]
pub struct Counts {
    /// Results.
    pub written: u64,
    /// Their bytes.
    pub bytes: u64,
    /// The bytes of the longest.
    pub longest: usize,
    /// Refused files, by number from 1. 24 is not among them: it is asked for at each result.
    pub refused: [u64; 23],
}

impl Counts {
    /// Counts an outcome.
    ///
    /// # Panics
    /// If a number is not 1 to 23: [`repack`](super::repack) lets no such outcome pass.
    pub fn count(&mut self, outcome: Outcome) {
        match outcome {
            Outcome::Written(size) => {
                self.written += 1;
                self.bytes += size as u64;
                self.longest = self.longest.max(size);
            }
            Outcome::Refused(refusal) => self.refused[refusal.number as usize - 1] += 1,
        }
    }

    /// All files.
    pub fn files(&self) -> u64 {
        self.written + self.refused.iter().sum::<u64>()
    }

    /// Files that the check refuses, and those that only repacking does, by number from 21.
    pub fn refused(&self) -> (u64, &[u64]) {
        let (checked, own) = self.refused.split_at(20);
        (checked.iter().sum(), own)
    }

    /// Whether each refusal of repacking alone occurred.
    pub fn all_occurred(&self) -> bool {
        let (_, own) = self.refused();
        own.iter().all(|count| *count > 0)
    }
}

impl AddAssign for Counts {
    fn add_assign(&mut self, other: Self) {
        self.written += other.written;
        self.bytes += other.bytes;
        self.longest = self.longest.max(other.longest);
        for (sum, count) in self.refused.iter_mut().zip(other.refused) {
            *sum += count;
        }
    }
}
