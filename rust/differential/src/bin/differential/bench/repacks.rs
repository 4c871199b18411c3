//! How long the original and the library take to repack large masters.

use super::{BYTES, head, name, row, timed};
use crate::Answer;
use differential::generators::masters::{Waves, of_waves};
use differential::generators::shapes::{Large, large};
use differential::model::MAX_SIZE;
use differential::oracle;
use std::hint::black_box;
use std::io::Write;
use std::time::Duration;

/// Runs of each; the best counts.
const REPEATS: u32 = 9;

/// Waves of the two masters that are hard to tell apart.
const WAVES: usize = 11_400;

/// A row for each master: the best times of the original and of `sgub_repack` into a buffer that is there, run in turn, and
/// their ratio. False if the library is slower than the original on some master.
pub fn bench(out: &mut impl Write) -> Answer {
    head("master", out)?;
    let shapes = [
        Large::V1Records,
        Large::V1EmptyFrames,
        Large::V1Waves,
        Large::V1Pcm,
    ];
    let mut never_slower = true;
    for shape in shapes {
        never_slower &= row(name(shape), best(&large(shape, BYTES))?, out)?;
    }
    let different = of_waves(Waves::Different, WAVES);
    never_slower &= row("11,400 different waves", best(&different)?, out)?;
    let alike = of_waves(Waves::AlikeInFront, WAVES);
    let name = "11,400 waves that share 255 bytes";
    never_slower &= row(name, best(&alike)?, out)?;
    Ok(never_slower)
}

/// The best times of both, which have to make the same file.
fn best(master: &[u8]) -> Result<[Duration; 2], String> {
    let mut best = [Duration::MAX; 2];
    let mut buffer = vec![0xA5; MAX_SIZE];
    for _ in 0..REPEATS {
        let (time, original) = timed(|| oracle::repack(black_box(master)));
        best[0] = best[0].min(time);
        let (time, library) = timed(|| sgub::repack(black_box(master), &mut buffer));
        best[1] = best[1].min(time);
        let size = library.map_err(|refusal| format!("the library refuses: {refusal:?}"))?;
        if original? != buffer[..size] {
            return Err(String::from("library and original differ"));
        }
    }
    Ok(best)
}
