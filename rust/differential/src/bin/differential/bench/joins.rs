//! How long the library takes to join large files, beside checking and copying them.

use super::{milliseconds, timed};
use crate::Answer;
use differential::joins::large::{Content, piece};
use differential::model::MAX_SIZE;
use differential::oracle;
use std::hint::black_box;
use std::io::Write;
use std::time::Duration;

/// Runs of each; the best counts.
const REPEATS: u32 = 15;

/// Bytes of a file.
const BYTES: usize = 7_000_000;

/// Joining may take so many times as long as checking both files and copying them once.
const MOST: f64 = 1.5;

/// A row for each pair: the best times of the library's check of both files, of that with a copy of both, of `sgub_join` into a buffer
/// that is there, and of the original's reading of both, run in turn; and how many times as long joining takes as checking and copying.
/// False if that is too long on some pair.
pub fn bench(out: &mut impl Write) -> Answer {
    writeln!(
        out,
        "| pair of | bytes of both | original reads both, ms | check both, ms | and copy, ms | join, ms | join / check and copy |\n|---|---:|---:|---:|---:|---:|---:|"
    )?;
    let mut quick = true;
    for content in Content::ALL {
        let first = piece(content, BYTES);
        let second = first.clone();
        let times = best([&first, &second])?;
        let [original, check, copy, join] = times.map(milliseconds);
        let ratio = join / copy;
        let (name, bytes) = (content.name(), first.len() + second.len());
        writeln!(
            out,
            "| {name} | {bytes} | {original:.2} | {check:.2} | {copy:.2} | {join:.2} | {ratio:.2} |"
        )?;
        out.flush()?;
        quick &= ratio <= MOST;
    }
    Ok(quick)
}

/// The best times: the original, check, check and copy, join.
fn best(files: [&[u8]; 2]) -> Result<[Duration; 4], String> {
    let [first, second] = files;
    let mut buffer = vec![0xA5; MAX_SIZE];
    let mut best = [Duration::MAX; 4];
    let mut note = |which: usize, time: Duration| best[which] = best[which].min(time);
    for _ in 0..REPEATS {
        let (time, judged) = timed(|| files.map(|file| oracle::judge(black_box(file)).map(drop)));
        note(0, time);
        judged.into_iter().collect::<Result<(), _>>()?;
        note(1, timed(|| check(files)).0);
        let (time, verdict) = timed(|| {
            check(files)?;
            copy(files, black_box(&mut buffer));
            Ok::<(), sgub::Refusal>(())
        });
        note(2, time);
        verdict.map_err(|refusal| refusal.to_string())?;
        let (time, size) = timed(|| sgub::join(black_box(first), black_box(second), &mut buffer));
        note(3, time);
        if size != Ok(first.len() + second.len() - 40) {
            return Err(format!("the library answers {size:?}"));
        }
    }
    Ok(best)
}

fn check(files: [&[u8]; 2]) -> Result<(), sgub::Refusal> {
    for file in files {
        black_box(sgub::check(black_box(file))?);
    }
    Ok(())
}

/// Copies both files into the buffer, one behind the other.
fn copy([first, second]: [&[u8]; 2], buffer: &mut [u8]) {
    let (front, behind) = buffer.split_at_mut(first.len());
    front.copy_from_slice(first);
    behind[..second.len()].copy_from_slice(second);
}
