//! How many jumps of each kind were made.

use super::player::Situation;
use super::script::{Call, Script, Step};
use std::ops::AddAssign;

/// How many jumps of each kind were made.
#[derive(Clone, Copy, Debug, Default, PartialEq, Eq)]
pub struct Counts {
    /// Accepted files that were played, by version from 1, those that do not repeat first.
    pub files: [[u64; 4]; 2],
    /// Of them those with more than one entry in their index.
    pub long: u64,
    /// Accepted jumps: before anything was played, between vsyncs, within one, on a finished player.
    pub accepted: [u64; 4],
    /// Of them those with another file than the player's.
    pub foreign: u64,
    /// Refused jumps: 1 to 20, 25, 26, 27.
    pub refused: [u64; 4],
    /// Vsync calls that were not refused.
    pub calls: u64,
    /// Their writes.
    pub writes: u64,
}

impl Counts {
    /// Counts a script.
    pub fn count(&mut self, script: &Script) {
        let (file, index) = (&script.files[0], &script.indexes[0]);
        if !index.is_empty() {
            let [version, repeat] = [file[4], file[6]].map(usize::from);
            self.files[repeat][version - 1] += 1;
        }
        self.long += u64::from(index.len() > 16);
        let mut plays = 0;
        for step in &script.steps {
            self.step(step, &mut plays);
        }
    }

    /// Counts a step of a player that plays one of the two files.
    fn step(&mut self, step: &Step, plays: &mut usize) {
        let number = step.answer.refusal.map(|refusal| refusal.number);
        match (step.call, number) {
            (Call::Vsync(_), None) => {
                self.calls += 1;
                self.writes += step.answer.records.len() as u64;
            }
            (Call::Vsync(_), Some(_)) => {}
            (Call::Jump(..), None) => {
                let is_other = step.file.which != *plays;
                *plays = step.file.which;
                self.foreign += u64::from(is_other || step.file.change.is_some());
                self.accepted[match step.situation {
                    Situation::Before => 0,
                    Situation::Between => 1,
                    Situation::Within => 2,
                    Situation::Finished => 3,
                }] += 1;
            }
            (Call::Jump(..), Some(number)) => {
                self.refused[match number {
                    25 => 1,
                    26 => 2,
                    27 => 3,
                    _ => 0,
                }] += 1;
            }
        }
    }

    /// All jumps.
    pub fn jumps(&self) -> u64 {
        self.accepted.iter().chain(&self.refused).sum()
    }

    /// Whether each of them occurred, and files of each version, repeating and not.
    pub fn all_occurred(mut self) -> bool {
        self.numbers().iter().all(|number| **number > 0)
    }

    fn numbers(&mut self) -> Vec<&mut u64> {
        let files = self.files.iter_mut().flatten();
        let jumps = self.accepted.iter_mut().chain(&mut self.refused);
        let others = [&mut self.long, &mut self.foreign, &mut self.calls];
        let others = others.into_iter().chain([&mut self.writes]);
        files.chain(jumps).chain(others).collect()
    }
}

impl AddAssign for Counts {
    fn add_assign(&mut self, mut other: Self) {
        for (sum, number) in self.numbers().into_iter().zip(other.numbers()) {
            *sum += *number;
        }
    }
}
