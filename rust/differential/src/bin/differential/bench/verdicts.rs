//! How long the original and the library take to judge large files.

use super::{BYTES, head, name, row, timed};
use crate::Answer;
use differential::generators::shapes::{Large, large};
use differential::oracle;
use std::hint::black_box;
use std::io::Write;
use std::time::Duration;

/// Runs of each; the best counts.
const REPEATS: u32 = 25;

/// A row for each shape: the best times of `StreamPlayer::from_bytes` and of `sgub_check`, run in turn, and their ratio. False
/// if the library is slower than the original on some shape.
pub fn bench(out: &mut impl Write) -> Answer {
    head("shape", out)?;
    let mut never_slower = true;
    for shape in Large::ALL {
        let times = best(&large(shape, BYTES))?;
        never_slower &= row(name(shape), times, out)?;
    }
    Ok(never_slower)
}

/// The best times of both.
fn best(file: &[u8]) -> Result<[Duration; 2], String> {
    let mut best = [Duration::MAX; 2];
    for _ in 0..REPEATS {
        let (time, judged) = timed(|| oracle::judge(black_box(file)));
        best[0] = best[0].min(time);
        judged?;
        let (time, verdict) = timed(|| sgub::check(black_box(file)));
        best[1] = best[1].min(time);
        if let Err(refusal) = verdict {
            return Err(format!("the library refuses a benchmark file: {refusal:?}"));
        }
    }
    Ok(best)
}
