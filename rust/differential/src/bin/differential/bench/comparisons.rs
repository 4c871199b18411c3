//! How long the library takes to compare large files.

use super::{milliseconds, name, timed};
use crate::Answer;
use differential::generators::shapes::{Large, large};
use differential::model::{MAX_SIZE, Operation, PCM, PCM_MEMORY, Stream};
use sgub::{Comparison, IMAGE_SIZE};
use std::hint::black_box;
use std::io::Write;
use std::time::Duration;

/// Runs of a pair that takes less than a second; the best counts.
const REPEATS: u32 = 9;

/// The longest master of records whose repacking has room: each record takes a byte more there.
const RECORDS: usize = MAX_SIZE / 6 * 5;

/// A row for each pair: the best time of `sgub_compare` into images that are there, and the verdict. False if a pair of files
/// takes a second or more, the long opening two minutes or more, or the long frame a tenth of a second or more.
pub fn bench(out: &mut impl Write) -> Answer {
    writeln!(
        out,
        "| pair | master, bytes | other, bytes | library, ms | verdict |\n|---|---:|---:|---:|---|"
    )?;
    let mut quick = true;
    for (shape, size) in [
        (Large::V1Records, RECORDS),
        (Large::V1EmptyFrames, MAX_SIZE - 20),
        (Large::V1Waves, MAX_SIZE),
        (Large::V1Pcm, RECORDS),
    ] {
        let master = large(shape, size);
        let other = sgub::repack_to_vec(&master).map_err(|refusal| format!("{refusal:?}"))?;
        let name = format!("{}, and its repacking", name(shape));
        quick &= row(&name, [&master, &other], REPEATS, 1000, out)?;
    }
    let one = Stream::empty_frame(1);
    let master = one.to_bytes();
    let fill = Operation::fill(PCM, 0, PCM_MEMORY, 0x55);
    let mut long = Stream::empty_frame(2);
    long.opening = vec![fill; (MAX_SIZE - 42) / 10];
    let name = "an empty frame, and an opening of FILLs of 1 MiB";
    quick &= row(name, [&master, &long.to_bytes()], 1, 120_000, out)?;
    let mut long = Stream::empty_frame(2);
    long.frames = vec![vec![fill; 65_535]];
    let name = "an empty frame, and a frame of 65,535 FILLs of 1 MiB";
    quick &= row(name, [&master, &long.to_bytes()], REPEATS, 100, out)?;
    Ok(quick)
}

/// Whether the pair takes less than so many milliseconds.
fn row(
    name: &str,
    [master, other]: [&[u8]; 2],
    repeats: u32,
    most: u64,
    out: &mut impl Write,
) -> Answer {
    let mut images = [(); 2].map(|()| vec![0; IMAGE_SIZE]);
    let [master_image, other_image] = &mut images;
    let mut best = Duration::MAX;
    let mut verdict = Ok(Comparison::Failed);
    for _ in 0..repeats {
        let (time, answer) = timed(|| {
            sgub::compare(
                black_box(master),
                black_box(other),
                master_image,
                other_image,
            )
        });
        best = best.min(time);
        verdict = answer;
    }
    let word = match verdict {
        Ok(Comparison::Passed) => "passed",
        Ok(Comparison::Failed) => "failed",
        Err(refused) => return Err(format!("{name}: {refused}").into()),
    };
    let (master, other, time) = (master.len(), other.len(), milliseconds(best));
    writeln!(out, "| {name} | {master} | {other} | {time:.2} | {word} |")?;
    out.flush()?;
    Ok(best < Duration::from_millis(most))
}
