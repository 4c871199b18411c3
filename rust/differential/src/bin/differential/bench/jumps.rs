//! How long the original and the library take to come to the last frame of large files, and what an index costs.

use super::{BYTES, milliseconds, name, timed};
use crate::Answer;
use differential::generators::shapes::{Large, large};
use differential::oracle::CountingPlayer;
use sgub::{LONGEST_INDEX, StreamPlayer};
use std::hint::black_box;
use std::io::Write;
use std::time::Duration;

/// Runs of the original; the best counts.
const REPEATS: u32 = 9;

/// Runs of the library for each of them: they take a fraction of the time, and are as easily disturbed.
const LIBRARY_REPEATS: u32 = 3;

/// The least ratio of the median shape.
const LEAST_MEDIAN: f64 = 2.0;

/// How many times the check of a file its index may cost, which includes one.
const MOST_CHECKS: f64 = 2.0;

/// A row for each shape: the best times of the original's way, a start and a count from frame 1 with a sink that only counts, and of
/// the library's, a jump by an index that is built, alone and with a start before it; then of a check, and of building the index.
/// False if a target is missed: with a start before the jump no shape slower and the median shape twice as fast, and an index for two
/// checks at most.
pub fn bench(out: &mut impl Write) -> Answer {
    writeln!(
        out,
        "| shape | frames | original, ms | jump, ms | start and jump, ms | original / jump | original / start and jump | check, ms | index, ms | index / check |\n|---|---:|---:|---:|---:|---:|---:|---:|---:|---:|"
    )?;
    let (mut jumps, mut starts) = (Vec::new(), Vec::new());
    let mut is_cheap = true;
    for shape in Large::ALL {
        let file = large(shape, BYTES);
        let Best { frames, times } = best(&file)?;
        let [original, jump, start, check, index] = times.map(milliseconds);
        let ratios = [original / jump, original / start, index / check];
        writeln!(
            out,
            "| {} | {frames} | {original:.2} | {jump:.2} | {start:.2} | {:.2} | {:.2} | {check:.2} | {index:.2} | {:.2} |",
            name(shape),
            ratios[0],
            ratios[1],
            ratios[2]
        )?;
        out.flush()?;
        jumps.push(ratios[0]);
        starts.push(ratios[1]);
        is_cheap &= ratios[2] <= MOST_CHECKS;
    }
    let [jump, start] = [&mut jumps, &mut starts].map(|ratios| least_and_median(ratios));
    writeln!(
        out,
        "\nleast and median ratio: jump {:.2} and {:.2}, start and jump {:.2} and {:.2}",
        jump.0, jump.1, start.0, start.1
    )?;
    Ok(start.0 >= 1.0 && start.1 >= LEAST_MEDIAN && is_cheap)
}

/// The least ratio, and the one below which half of them are.
fn least_and_median(ratios: &mut [f64]) -> (f64, f64) {
    ratios.sort_by(f64::total_cmp);
    (ratios[0], ratios[ratios.len() / 2 - 1])
}

/// The frames of a file, and the best times: the original, jump, start and jump, check, index.
struct Best {
    frames: u32,
    times: [Duration; 5],
}

fn best(file: &[u8]) -> Result<Best, String> {
    let index = sgub::build_index(file).map_err(|refusal| refusal.to_string())?;
    let started = StreamPlayer::start(file).map_err(|refusal| refusal.to_string())?;
    let frames = started.frame_count();
    let mut buffer = vec![0; LONGEST_INDEX];
    let mut times = [Duration::MAX; 5];
    let mut note = |which: usize, time: Duration| times[which] = times[which].min(time);
    for _ in 0..REPEATS {
        let (time, reached) = timed(|| original(black_box(file), frames));
        note(0, time);
        if reached? != frames - 1 {
            return Err(String::from("the original is at another frame"));
        }
        for _ in 0..LIBRARY_REPEATS {
            library(file, &index, &started, &mut buffer, &mut note)?;
        }
    }
    Ok(Best { frames, times })
}

/// Notes the times of a jump, of a start and a jump, of a check and of building the index.
fn library(
    file: &[u8],
    index: &[u8],
    started: &StreamPlayer,
    buffer: &mut [u8],
    note: &mut impl FnMut(usize, Duration),
) -> Result<(), String> {
    let frames = started.frame_count();
    let jump = |player: &mut StreamPlayer| {
        let told = player.jump_to_frame(black_box(file), black_box(index), frames);
        told.map(|()| player.frame_index())
    };
    let mut player = started.clone();
    let (time, reached) = timed(|| jump(&mut player));
    note(1, time);
    let (time, again) = timed(|| jump(&mut StreamPlayer::start(black_box(file))?));
    note(2, time);
    if [reached, again] != [Ok(frames - 1); 2] {
        return Err(format!("the library is at {reached:?} and {again:?}"));
    }
    note(3, timed(|| sgub::check(black_box(file))).0);
    let (time, size) = timed(|| sgub::build_index_into(black_box(file), buffer));
    note(4, time);
    match size {
        Ok(size) if size == index.len() => Ok(()),
        _ => Err(format!("the index is {size:?}")),
    }
}

/// A start, and all frames before the last: the frames that are played then.
fn original(file: &[u8], frames: u32) -> Result<u32, String> {
    let mut player = CountingPlayer::new(file)?;
    for _ in 1..frames {
        player.advance_vsync();
    }
    Ok(player.frame_index())
}
