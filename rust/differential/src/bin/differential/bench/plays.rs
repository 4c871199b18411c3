//! How long the original and the library take to play large files.

use super::{BYTES, milliseconds, name, timed};
use crate::Answer;
use differential::generators::shapes::{Large, large};
use differential::oracle::{CountingPlayer, Player, Vsync};
use sgub::{StreamPlayer, WriteRecord};
use std::hint::black_box;
use std::io::Write;
use std::time::Duration;

/// Runs of each; the best counts.
const REPEATS: u32 = 7;

/// Records of the library's runs.
const RUNS: [usize; 3] = [64, 4_096, 65_536];

/// The least ratio to the original with a recording sink, and to the one with a counting sink, both with runs of 4,096.
const LEAST: [f64; 2] = [1.5, 1.0];

/// A row for each shape: the best times of one pass and the closing writes, started before the clock, and how many times the
/// library is as fast with runs of 4,096 records. False if a ratio is below what is asked for.
pub fn bench(out: &mut impl Write) -> Answer {
    writeln!(
        out,
        "| shape | writes | original, recording, ms | original, counting, ms | library, 64, ms | 4,096, ms | 65,536, ms | recording / 4,096 | counting / 4,096 |\n|---|---:|---:|---:|---:|---:|---:|---:|---:|"
    )?;
    let mut good = true;
    for shape in Large::ALL {
        let file = large(shape, BYTES);
        let (times, writes) = best(&file)?;
        let [recording, counting, a, b, c] = times.map(milliseconds);
        let ratios = [recording / b, counting / b];
        writeln!(
            out,
            "| {} | {writes} | {recording:.2} | {counting:.2} | {a:.2} | {b:.2} | {c:.2} | {:.2} | {:.2} |",
            name(shape),
            ratios[0],
            ratios[1]
        )?;
        out.flush()?;
        good &= ratios
            .iter()
            .zip(LEAST)
            .all(|(ratio, least)| *ratio >= least);
    }
    Ok(good)
}

/// The best times of the original with a recording and a counting sink, then of the library with each run; and the writes.
fn best(file: &[u8]) -> Result<([Duration; 5], u64), String> {
    let mut best = [Duration::MAX; 5];
    let mut counts = [0; 5];
    for _ in 0..REPEATS {
        let mut note = |index: usize, (time, writes): (Duration, u64)| {
            best[index] = best[index].min(time);
            counts[index] = writes;
        };
        note(0, recording(file)?);
        note(1, counting(file)?);
        for (index, records) in (2..).zip(RUNS) {
            note(index, library(file, records)?);
        }
    }
    if counts.iter().any(|count| *count != counts[0]) {
        return Err(format!(
            "not all make the same number of writes: {counts:?}"
        ));
    }
    Ok((best, counts[0]))
}

fn recording(file: &[u8]) -> Result<(Duration, u64), String> {
    let mut player = Player::new(black_box(file))?;
    let mut vsync = Vsync::default();
    Ok(timed(|| {
        let mut writes = 0;
        while !player.is_finished() {
            player.advance_vsync(&mut vsync);
            writes +=
                (black_box(&vsync.writes).len() + black_box(&vsync.device_writes).len()) as u64;
        }
        writes
    }))
}

fn counting(file: &[u8]) -> Result<(Duration, u64), String> {
    let mut player = CountingPlayer::new(black_box(file))?;
    let (time, ()) = timed(|| {
        while !player.is_finished() {
            player.advance_vsync();
        }
    });
    // A PCM write is a call to each core, so the writes are counted by the others.
    let [first, second] = black_box(player.tallies());
    let calls = first.calls + second.calls + player.device_writes();
    Ok((time, calls - pcm_writes(file)?))
}

/// The writes to PCM memory.
fn pcm_writes(file: &[u8]) -> Result<u64, String> {
    let mut player = Player::new(file)?;
    let mut vsync = Vsync::default();
    let mut writes = 0;
    while !player.is_finished() {
        player.advance_vsync(&mut vsync);
        writes += vsync.writes.iter().filter(|write| write.0 == 2).count() as u64;
    }
    Ok(writes)
}

fn library(file: &[u8], records: usize) -> Result<(Duration, u64), String> {
    let mut player =
        StreamPlayer::start(black_box(file)).map_err(|refusal| format!("{refusal:?}"))?;
    let mut run = vec![WriteRecord::default(); records];
    let (time, writes) = timed(|| {
        let mut writes = 0;
        while !player.is_finished() {
            let vsync = player.advance_vsync(file, &mut run)?;
            writes += black_box(&run[..vsync.count]).len() as u64;
        }
        Ok::<u64, sgub::Refusal>(writes)
    });
    Ok((time, writes.map_err(|error| error.to_string())?))
}
