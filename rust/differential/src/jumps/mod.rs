//! The library's jumps against a player of document 02 over what the original plays from its start.

mod counts;
pub mod draw;
pub mod others;
pub mod pass;
pub mod player;
pub mod script;
pub mod vectors;

pub use counts::Counts;

use crate::rng::Rng;
use draw::Drawing;
use script::Script;

/// Steps of a script.
const STEPS: usize = 24;

/// Draws a script for each file, and holds library and original to it.
pub struct Jumps {
    rng: Rng,
    /// The file before, which stands for any file.
    any: Vec<u8>,
    counts: Counts,
}

impl Jumps {
    /// Scripts are drawn by this seed.
    pub fn new(seed: u64) -> Self {
        Self {
            rng: Rng::new(seed),
            any: Vec::new(),
            counts: Counts::default(),
        }
    }

    /// How many jumps of each kind were made so far.
    pub fn counts(&self) -> Counts {
        self.counts
    }

    /// Plays a file that the original accepts, and jumps in it.
    ///
    /// # Errors
    /// What is not the same.
    pub fn jump(&mut self, file: &[u8]) -> Result<(), String> {
        let script = self.script(file)?;
        script.hold()?;
        self.counts.count(&script);
        file.clone_into(&mut self.any);
        Ok(())
    }

    /// A script for a file, whose pass the original plays.
    fn script(&mut self, file: &[u8]) -> Result<Script, String> {
        let own = pass::Pass::read(file);
        own.hold(file)?;
        let other = others::other(file, &own, &self.any, &mut self.rng);
        let files = [file.to_vec(), other];
        let passes = draw::passes(&files);
        Ok(Drawing::new(files, &passes, &mut self.rng).draw(STEPS))
    }
}

#[cfg(test)]
mod tests {
    use super::*;
    use crate::examples::example;
    use crate::generators::{Choice, Family, Generator};
    use crate::jumps::pass::Pass;
    use crate::jumps::script::{Answer, Call};
    use crate::model::weight;

    #[test]
    fn the_examples_play_alike_behind_jumps() {
        let mut jumps = Jumps::new(1);
        for _ in 0..50 {
            for name in ["empty-1", "tune-1", "empty-2", "bank-3", "cards-4"] {
                jumps.jump(&example(name)).unwrap();
            }
        }
        let files = [[100, 50, 0, 50], [0, 0, 50, 0]];
        assert_eq!(jumps.counts().files, files);
    }

    /// Makes something wrong in the answer to a step; false where there is no such thing.
    type Wrong = fn(&mut Answer) -> bool;

    /// Number and place of a refusal, a refusal that is left out, each end of the records, and what the player tells behind the step.
    const WRONGS: [Wrong; 9] = [
        |answer| {
            let refusal = answer.refusal.as_mut();
            refusal.map(|refusal| refusal.number += 1).is_some()
        },
        |answer| {
            let refusal = answer.refusal.as_mut();
            refusal.map(|refusal| refusal.place += 1).is_some()
        },
        |answer| answer.refusal.take().is_some(),
        |answer| {
            let record = answer.records.last_mut();
            record.map(|record| record.value ^= 1).is_some()
        },
        |answer| {
            let record = answer.records.first_mut();
            record.map(|record| record.address ^= 1).is_some()
        },
        |answer| {
            answer.is_complete ^= true;
            true
        },
        |answer| {
            answer.is_finished ^= true;
            true
        },
        |answer| {
            answer.frames += 1;
            true
        },
        |answer| answer.waves[15].replace(777) != Some(777),
    ];

    /// Whatever is wrong in the answer to a step, the library is seen to differ.
    #[test]
    fn a_difference_is_noticed() {
        let mut jumps = Jumps::new(3);
        let mut generator = Generator::new(3, Choice::of(Family::Valid));
        let mut noticed = [0; 9];
        for _ in 0..60 {
            let file = generator.next_file();
            if weight::writes(file) > 10_000 {
                continue;
            }
            let script = jumps.script(file).unwrap();
            script.hold().unwrap();
            for (wrong, noticed) in WRONGS.iter().zip(&mut noticed) {
                for at in 0..script.steps.len() {
                    let mut script = script.clone();
                    if wrong(&mut script.steps[at].answer) {
                        assert!(script.hold().is_err());
                        *noticed += 1;
                    }
                }
            }
        }
        assert!(noticed.iter().all(|count| *count > 50), "{noticed:?}");
    }

    /// A jump to a frame beside the one that is expected is noticed by what is played behind it.
    #[test]
    fn a_jump_to_another_frame_is_noticed() {
        let mut jumps = Jumps::new(5);
        let script = jumps.script(&example("tune-1")).unwrap();
        let mut count = 0;
        for at in 0..script.steps.len() {
            let mut script = script.clone();
            let step = &mut script.steps[at];
            if let (Call::Jump(_, frame), None) = (&mut step.call, step.answer.refusal) {
                *frame = *frame % 3 + 1;
                assert!(script.hold().is_err());
                count += 1;
            }
        }
        assert!(count > 1);
    }

    /// The original plays a file in which one byte is another.
    #[test]
    fn another_pass_is_noticed() {
        for (name, at) in [
            ("tune-1", 24),
            ("tune-1", 23),
            ("tune-1", 6),
            ("cards-4", 160),
        ] {
            let file = example(name);
            let mut other = file.clone();
            other[at] ^= 1;
            assert_eq!(Pass::read(&file).hold(&file), Ok(()));
            assert!(Pass::read(&file).hold(&other).is_err(), "{name} {at}");
        }
    }
}
