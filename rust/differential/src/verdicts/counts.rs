//! How often each verdict was given.

use super::Verdict;
use std::ops::AddAssign;

/// How often each verdict was given.
#[derive(Clone, Copy, Debug, Default, PartialEq, Eq)]
pub struct Counts {
    /// Accepted files, by version from 1.
    pub accepted: [u64; 4],
    /// Refused files, by number from 1.
    pub refused: [u64; 20],
}

impl Counts {
    /// Counts a verdict.
    ///
    /// # Panics
    /// If a number is not 1 to 20 or a version not 1 to 4: [`verdict`](super::verdict) lets no such verdict pass.
    pub fn count(&mut self, verdict: &Verdict) {
        match verdict {
            Ok(header) => self.accepted[usize::from(header.version) - 1] += 1,
            Err(refusal) => self.refused[refusal.number as usize - 1] += 1,
        }
    }

    /// All files.
    pub fn files(&self) -> u64 {
        self.accepted.iter().chain(&self.refused).sum()
    }

    /// Whether each version was accepted and each number refused.
    pub fn all_occurred(&self) -> bool {
        let mut all = self.accepted.iter().chain(&self.refused);
        all.all(|count| *count > 0)
    }
}

impl AddAssign for Counts {
    fn add_assign(&mut self, other: Self) {
        let ours = self.accepted.iter_mut().chain(&mut self.refused);
        for (sum, count) in ours.zip(other.accepted.into_iter().chain(other.refused)) {
            *sum += count;
        }
    }
}
