//! The library's player against the original's.

mod counts;
pub mod vectors;

pub use counts::Counts;

use crate::oracle::{self, Vsync};
use crate::rng::Rng;
use sgub::{Refusal, StreamPlayer, WriteRecord};

/// Run lengths that are drawn from.
const RUNS: &[usize] = &[0, 0, 1, 2, 7, 7, 64, 64, 64, 300, 1000, 4096];

/// What a record holds before a call: no write of any file.
const UNTOUCHED: WriteRecord = WriteRecord {
    target: 0xEE,
    address: 0xEEEE_EEEE,
    value: 0xEE,
};

/// The refusal of a call with a file that is not the player's.
const OTHER_FILE: Refusal = Refusal {
    number: 25,
    place: 0,
};

/// Plays files in both, and compares.
pub struct Plays {
    rng: Rng,
    run: Vec<WriteRecord>,
    vsync: Vsync,
    /// The file before.
    other: Vec<u8>,
    counts: Counts,
}

impl Plays {
    /// Runs and foreign files are drawn by this seed.
    pub fn new(seed: u64) -> Self {
        Self {
            rng: Rng::new(seed),
            run: vec![UNTOUCHED; RUNS.iter().copied().max().unwrap_or(0)],
            vsync: Vsync::default(),
            other: Vec::new(),
            counts: Counts::default(),
        }
    }

    /// How much was played so far.
    pub fn counts(&self) -> Counts {
        self.counts
    }

    /// Plays a file that the original accepts: all frames and some vsyncs behind them.
    ///
    /// # Errors
    /// What is not the same.
    pub fn play(&mut self, file: &[u8]) -> Result<(), String> {
        self.play_beside(file, file)
    }

    /// Plays a file in the library beside a file in the original.
    fn play_beside(&mut self, file: &[u8], theirs: &[u8]) -> Result<(), String> {
        let mut original = oracle::Player::new(theirs)?;
        let mut player =
            StreamPlayer::start(file).map_err(|refusal| format!("library {refusal:?}"))?;
        let frames = player.frame_count();
        let behind = 1 + self.rng.below(if player.repeats() {
            frames.min(8) + 3
        } else {
            4
        });
        for number in 1..=u64::from(frames) + u64::from(behind) {
            original.advance_vsync(&mut self.vsync);
            self.advance(&mut player, file)
                .map_err(|text| format!("vsync {number}: {text}"))?;
            state(&player, &original).map_err(|text| format!("behind vsync {number}: {text}"))?;
            self.counts.vsyncs += 1;
        }
        let version = usize::from(player.version());
        self.counts.files[usize::from(player.repeats())][version - 1] += 1;
        self.other.clear();
        self.other.extend_from_slice(file);
        Ok(())
    }

    /// Takes the original's vsync from the library, call by call.
    fn advance(&mut self, player: &mut StreamPlayer, file: &[u8]) -> Result<(), String> {
        let (mut writes, mut device_writes) = (0, 0);
        loop {
            if self.rng.one_in(8) {
                self.foreign(player, file)?;
            }
            let room = self.rng.pick(RUNS);
            let left =
                self.vsync.writes.len() + self.vsync.device_writes.len() - (writes + device_writes);
            let told = player
                .advance_vsync(file, &mut self.run[..room])
                .map_err(|refusal| format!("the library refuses its own file: {refusal}"))?;
            let count = left.min(room);
            if (told.count, told.complete) != (count, left == count) {
                return Err(format!("{left} left, {room} records: library {told:?}"));
            }
            for record in &mut self.run[..count] {
                let (list, at) = match record.target {
                    0..=2 => (&self.vsync.writes, &mut writes),
                    _ => (&self.vsync.device_writes, &mut device_writes),
                };
                let write = (record.target, record.address, record.value);
                if list.get(*at) != Some(&write) {
                    let theirs = list.get(*at);
                    return Err(format!("library {record:?}, original {theirs:?}"));
                }
                *at += 1;
                *record = UNTOUCHED;
            }
            self.untouched()?;
            self.counts.calls += 1;
            self.counts.writes += count as u64;
            if told.complete {
                return Ok(());
            }
        }
    }

    /// A call with a file of another length: refused, with nothing changed, unless the player is finished.
    fn foreign(&mut self, player: &mut StreamPlayer, file: &[u8]) -> Result<(), String> {
        let file = match self.rng.below(3) {
            0 if self.other.len() != file.len() => self.other.as_slice(),
            1 => &[],
            _ => &file[..file.len() - 1],
        };
        let before = player.clone();
        let room = self.rng.pick(RUNS);
        let told = player.advance_vsync(file, &mut self.run[..room]);
        let same = match told {
            Ok(vsync) => player.is_finished() && vsync.count == 0 && vsync.complete,
            Err(refusal) => refusal == OTHER_FILE && !player.is_finished(),
        };
        if !same || *player != before {
            return Err(format!("a foreign file: library {told:?}, {before:?}"));
        }
        self.counts.foreign += u64::from(told.is_err());
        self.untouched()
    }

    fn untouched(&self) -> Result<(), String> {
        if self.run.iter().any(|record| *record != UNTOUCHED) {
            return Err("the library touches a record behind its writes".into());
        }
        Ok(())
    }
}

/// What both tell of themselves between two vsyncs.
fn state(player: &StreamPlayer, original: &oracle::Player) -> Result<(), String> {
    let waves = std::array::from_fn(|core| {
        std::array::from_fn(|channel| player.wave_source(core, channel))
    });
    let ours = (player.is_finished(), player.frame_index(), waves);
    let theirs = (
        original.is_finished(),
        original.frame_index(),
        original.wave_sources(),
    );
    if ours != theirs {
        return Err(format!("library {ours:?}, original {theirs:?}"));
    }
    Ok(())
}

#[cfg(test)]
mod tests {
    use super::*;
    use crate::examples::example;

    #[test]
    fn the_examples_play_alike() {
        let mut plays = Plays::new(1);
        for name in [
            "empty-1", "empty-2", "empty-4", "tune-1", "tune-2", "bank-3",
        ] {
            plays.play(&example(name)).unwrap();
        }
        plays.play(&example("cards-4")).unwrap();
        let files = [[2, 2, 0, 2], [0, 0, 1, 0]];
        assert_eq!(plays.counts().files, files);
    }

    /// The original plays a file in which one byte is another.
    #[test]
    fn a_difference_is_noticed() {
        for (name, at, text) in [
            // the value of an opening record, and its address
            ("tune-1", 24, "library WriteRecord"),
            ("tune-1", 23, "library WriteRecord"),
            // whether it repeats
            ("tune-1", 6, "left"),
            // a byte of the wave pool, and of the card pool
            ("cards-4", 160, "library WriteRecord"),
            ("cards-4", 420, "library WriteRecord"),
        ] {
            let file = example(name);
            let mut other = file.clone();
            other[at] ^= 1;
            let answer = Plays::new(1).play_beside(&file, &other);
            let error = answer.expect_err(name);
            assert!(error.contains(text), "{name} {at}: {error}");
        }
    }
}
