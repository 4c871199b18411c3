//! How much was played.

use std::ops::AddAssign;

/// How much was played.
#[derive(Clone, Copy, Debug, Default, PartialEq, Eq)]
pub struct Counts {
    /// Files, by version from 1, those that do not repeat first.
    pub files: [[u64; 4]; 2],
    /// Vsyncs, those behind the last frame too.
    pub vsyncs: u64,
    /// Calls of the library that were not refused.
    pub calls: u64,
    /// Writes.
    pub writes: u64,
    /// Calls that were refused, with a file that is not the player's.
    pub foreign: u64,
}

impl Counts {
    /// Whether each of them occurred, and files of each version, repeating and not.
    pub fn all_occurred(mut self) -> bool {
        self.numbers().iter().all(|number| **number > 0)
    }

    fn numbers(&mut self) -> [&mut u64; 12] {
        let [[a, b, c, d], [e, f, g, h]] = &mut self.files;
        let others = [&mut self.vsyncs, &mut self.calls, &mut self.writes];
        let [i, j, k] = others;
        [a, b, c, d, e, f, g, h, i, j, k, &mut self.foreign]
    }
}

impl AddAssign for Counts {
    fn add_assign(&mut self, mut other: Self) {
        for (sum, number) in self.numbers().into_iter().zip(other.numbers()) {
            *sum += *number;
        }
    }
}
