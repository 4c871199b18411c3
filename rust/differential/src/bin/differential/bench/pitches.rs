//! How long the original and the library take for pitches.

use super::{head, row, timed};
use crate::Answer;
use differential::{oracle, pitches};
use std::hint::black_box;
use std::io::Write;
use std::time::Duration;

/// Runs of each; the best counts.
const REPEATS: u32 = 25;

/// A run asks for all pitches so many times.
const TIMES: u32 = 20;

/// The best times of `frequency` without a base note and of `sgub_frequency`, run in turn, over all pairs that have a pitch, and their
/// ratio. False if the library is slower than the original.
pub fn bench(out: &mut impl Write) -> Answer {
    let pairs: Vec<(u8, i8)> = pitches::pairs()
        .filter(|(note, semitones)| pitches::by_original(*note, *semitones).is_ok())
        .collect();
    let mut best = [Duration::MAX; 2];
    for _ in 0..REPEATS {
        let (time, _) = timed(|| all(&pairs, oracle::frequency));
        best[0] = best[0].min(time);
        let (time, _) = timed(|| {
            all(&pairs, |note, semitones| {
                sgub::frequency(note, semitones).unwrap_or(0)
            })
        });
        best[1] = best[1].min(time);
    }
    head("pitches", out)?;
    let count = pairs.len() * TIMES as usize;
    Ok(row(&format!("{count} calls"), best, out)?)
}

/// The sum of all pitches, so that each call is made.
fn all(pairs: &[(u8, i8)], frequency: impl Fn(u8, i8) -> u16) -> u64 {
    let mut sum = 0;
    for _ in 0..TIMES {
        for (note, semitones) in black_box(pairs) {
            sum += u64::from(frequency(*note, *semitones));
        }
    }
    sum
}
