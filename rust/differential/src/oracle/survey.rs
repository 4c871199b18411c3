//! Counts of the original's verdicts over many files, by message.

use super::messages::{self, MESSAGES, Message};
use crate::oracle::{self, Accepted};

/// How often each verdict was given.
#[derive(Clone, Debug, PartialEq, Eq)]
pub struct Survey {
    /// Accepted files.
    pub accepted: u64,
    /// Refused files, in the order of [`MESSAGES`].
    pub refused: [u64; MESSAGES.len()],
}

impl Default for Survey {
    fn default() -> Self {
        Self {
            accepted: 0,
            refused: [0; MESSAGES.len()],
        }
    }
}

impl Survey {
    /// Asks the original about a file and counts the answer.
    ///
    /// # Panics
    /// If the original gives a message that is not in the table.
    pub fn ask(&mut self, file: &[u8]) -> Result<Accepted, String> {
        let verdict = oracle::verdict(file);
        match &verdict {
            Ok(_) => self.accepted += 1,
            Err(message) => {
                let index = messages::position(message);
                self.refused[index.unwrap_or_else(|| panic!("unknown message {message}"))] += 1;
            }
        }
        verdict
    }

    /// Adds the counts of another survey.
    pub fn add(&mut self, other: &Self) {
        self.accepted += other.accepted;
        for (sum, count) in self.refused.iter_mut().zip(other.refused) {
            *sum += count;
        }
    }

    /// All refused files.
    pub fn refusals(&self) -> u64 {
        self.refused.iter().sum()
    }

    /// Messages that some file gets and none of these did.
    pub fn missing(&self) -> Vec<&'static str> {
        self.texts(|message, count| message.unreachable.is_none() && count == 0)
    }

    /// Messages that no file gets by the table, and some of these did.
    pub fn unexpected(&self) -> Vec<&'static str> {
        self.texts(|message, count| message.unreachable.is_some() && count > 0)
    }

    fn texts(&self, wanted: impl Fn(&Message, u64) -> bool) -> Vec<&'static str> {
        let counted = MESSAGES.iter().zip(self.refused);
        counted
            .filter(|(message, count)| wanted(message, *count))
            .map(|(message, _)| message.text)
            .collect()
    }
}
