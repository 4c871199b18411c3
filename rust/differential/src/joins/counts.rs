//! How often each outcome of joining came.

use super::definition::MOST_OPERATIONS;
use super::{Joined, Outcome};
use crate::model::{MAX_POOLS, MAX_SIZE};
use sgub::Piece;
use std::ops::AddAssign;

/// How often each outcome of joining came.
#[derive(Clone, Copy, Debug, Default, PartialEq, Eq)]
pub struct Counts {
    /// Joined pairs.
    pub joined: u64,
    /// Of them those that do not repeat and do, by the first file and then by the second.
    pub repeating: [[u64; 2]; 2],
    /// Those whose second file has an opening, and those where both have one.
    pub opening: [u64; 2],
    /// Those with a COPY whose pool gets another number.
    pub renumbered: u64,
    /// Those at a limit: operations of a frame, pools, bytes.
    pub at_limit: [u64; 3],
    /// Those that the original played, once and for three passes.
    pub played: [u64; 2],
    /// Those that it only accepted.
    pub too_long: u64,
    /// Bytes of all results.
    pub bytes: u64,
    /// Vsyncs that were played.
    pub vsyncs: u64,
    /// Their writes.
    pub writes: u64,
    /// Refused pairs where a file is named, by file and number from 1.
    pub alone: [[u64; 21]; 2],
    /// Those where none is: 29, 30, 23. 24 is not among them: it is asked for at each result.
    pub together: [u64; 3],
    /// Refused pairs with another refusal behind, by a file alone and together.
    pub several: [u64; 2],
}

/// The refusals that name no file, in their order.
const TOGETHER: [u32; 3] = [29, 30, 23];

impl Counts {
    /// Counts an outcome.
    ///
    /// # Panics
    /// If a refusal has another number than joining gives: [`join`](super::join) lets none pass.
    pub fn count(&mut self, outcome: Outcome) {
        match outcome {
            Outcome::Joined(joined) => self.count_joined(&joined),
            Outcome::Refused(refused, several) => {
                let number = refused.refusal.number;
                let count = match refused.piece {
                    Some(Piece::First) => &mut self.alone[0][number as usize - 1],
                    Some(Piece::Second) => &mut self.alone[1][number as usize - 1],
                    None => {
                        let index = TOGETHER.iter().position(|known| *known == number);
                        &mut self.together[index.expect("29, 30 or 23")]
                    }
                };
                *count += 1;
                self.several[usize::from(refused.piece.is_none())] += u64::from(several);
            }
        }
    }

    fn count_joined(&mut self, joined: &Joined) {
        let [first, second] = joined.repeats.map(usize::from);
        self.joined += 1;
        self.repeating[first][second] += 1;
        self.opening[0] += u64::from(joined.opens[1]);
        self.opening[1] += u64::from(joined.opens == [true; 2]);
        self.renumbered += u64::from(joined.renumbers);
        self.bytes += joined.size as u64;
        let limits = [
            joined.operations == MOST_OPERATIONS,
            joined.pools == MAX_POOLS,
            joined.size == MAX_SIZE,
        ];
        for (count, is_at) in self.at_limit.iter_mut().zip(limits) {
            *count += u64::from(is_at);
        }
        match joined.played {
            Some(played) => {
                self.played[second] += 1;
                self.vsyncs += played.vsyncs;
                self.writes += played.writes;
            }
            None => self.too_long += 1,
        }
    }

    /// All pairs.
    pub fn pairs(&self) -> u64 {
        let refused = self.alone.iter().flatten().chain(&self.together);
        self.joined + refused.sum::<u64>()
    }

    /// What has to occur, in words, with how often it did.
    pub fn rows(&self) -> [(&'static str, u64); 21] {
        let [[neither, second], [first, both]] = self.repeating;
        let [opening, openings] = self.opening;
        let [operations, pools, size] = self.at_limit;
        let [once, passes] = self.played;
        let checked = self.alone.map(|counts| counts[..20].iter().sum());
        let [of_29, of_30, of_23] = self.together;
        [
            ("joined", self.joined),
            ("  neither repeats", neither),
            ("  the first repeats", first),
            ("  the second repeats", second),
            ("  both repeat", both),
            ("  the second has an opening", opening),
            ("  both have an opening", openings),
            ("  a COPY's pool is renumbered", self.renumbered),
            ("  a frame of 65,535", operations),
            ("  65,536 pools", pools),
            ("  0xE00000 bytes", size),
            ("  played to the end", once),
            ("  played for three passes", passes),
            ("refused first, 1-20", checked[0]),
            ("refused first, 21", self.alone[0][20]),
            ("refused second, 1-20", checked[1]),
            ("refused second, 21", self.alone[1][20]),
            ("  both files refused", self.several[0]),
            ("refused 29", of_29),
            ("refused 30", of_30),
            ("refused 23", of_23),
        ]
    }

    /// The numbers from 1 to 20 that did not come, by file.
    pub fn missing(&self) -> [Vec<usize>; 2] {
        self.alone.map(|counts| {
            let numbers = (1..=20).filter(|number| counts[number - 1] == 0);
            numbers.collect()
        })
    }

    /// Whether each outcome occurred that has to, each number for each file, and several of 29, 30 and 23 at once.
    pub fn all_occurred(&self) -> bool {
        self.rows().iter().all(|(_, count)| *count > 0)
            && self.missing().iter().all(Vec::is_empty)
            && self.several[1] > 0
    }

    fn numbers(&mut self) -> impl Iterator<Item = &mut u64> {
        let some = [
            &mut self.joined,
            &mut self.renumbered,
            &mut self.too_long,
            &mut self.bytes,
            &mut self.vsyncs,
            &mut self.writes,
        ];
        some.into_iter()
            .chain(self.repeating.iter_mut().flatten())
            .chain(&mut self.opening)
            .chain(&mut self.at_limit)
            .chain(&mut self.played)
            .chain(self.alone.iter_mut().flatten())
            .chain(&mut self.together)
            .chain(&mut self.several)
    }
}

impl AddAssign for Counts {
    fn add_assign(&mut self, mut other: Self) {
        for (sum, count) in self.numbers().zip(other.numbers()) {
            *sum += *count;
        }
    }
}

#[cfg(test)]
mod tests {
    use super::*;

    /// A run that never sees one of the outcomes fails. How much was played, and what was too long for it, is only told.
    #[test]
    fn each_outcome_has_to_occur() {
        let mut full = Counts::default();
        full.numbers().for_each(|count| *count = 1);
        assert!(full.all_occurred() && !Counts::default().all_occurred());
        let mut told = 0;
        for index in 0..full.numbers().count() {
            let mut counts = full;
            *counts.numbers().nth(index).unwrap() = 0;
            told += u32::from(counts.all_occurred());
        }
        assert_eq!(told, 4);
    }
}
