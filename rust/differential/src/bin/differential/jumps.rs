//! The library's jumps against the original played from its start, over many files, and stored scripts of calls and jumps.

use crate::Answer;
use crate::driver::{self, Amount, Part};
use differential::generators::shapes::Shape;
use differential::generators::{Choice, Family, Generator};
use differential::jumps::{Counts, Jumps, vectors};
use differential::model::weight;
use differential::oracle;
use std::io::{self, Write};

/// Files that a thread plays from one seed before it takes the next.
const SHARE: u64 = 2_000;

/// Files with more writes in one pass are left out.
const MOST_WRITES: u64 = 50_000;

/// Plays accepted files, as many as asked for, with jumps. False if library and original differ, or if some kind of jump did not occur.
pub fn compare(amount: Amount, out: &mut impl Write) -> Answer {
    let Some(agreement) = driver::compare(amount, SHARE, run, out)? else {
        return Ok(false);
    };
    let counts = &agreement.counts;
    report(counts, out)?;
    let Amount { count, seed } = amount;
    let Counts { calls, writes, .. } = counts;
    let jumps = counts.jumps();
    agreement.close(
        format_args!(
            "{count} files of seed {seed}: {jumps} jumps, {writes} writes in {calls} vsync calls"
        ),
        Some((count, "files")),
        out,
    )?;
    Ok(counts.all_occurred())
}

/// The part of one thread. Of four files one has up to 800 frames, and one has something at a limit of the sheet.
fn run(mut part: Part<'_>) -> Counts {
    let mut counts = Counts::default();
    while let Some(share) = part.next_share() {
        let mut jumps = Jumps::new(share.seed);
        let many = Choice {
            shape: Some(Shape::ManyFrames),
            ..Choice::of(Family::Valid)
        };
        let valid = Choice::of(Family::Valid);
        let mut generators = [valid.clone(), many, valid, Choice::of(Family::Boundary)]
            .map(|choice| Generator::new(share.seed, choice));
        let mut done = 0;
        while done < share.count {
            let file = generators[(done % 4) as usize].next_file();
            if oracle::judge(file).is_err() || weight::writes(file) > MOST_WRITES {
                continue;
            }
            if part.compare(&[file], || jumps.jump(file)).is_none() {
                break;
            }
            done += 1;
        }
        counts += jumps.counts();
    }
    counts
}

/// A line for each version, and for each kind of jump.
fn report(counts: &Counts, out: &mut impl Write) -> io::Result<()> {
    driver::versions("played once", counts.files, out)?;
    let [before, between, within, finished] = counts.accepted;
    let [checked, other, index, frame] = counts.refused;
    for (name, count) in [
        ("files with more than one entry", counts.long),
        ("jumps before the first vsync", before),
        ("jumps between vsyncs", between),
        ("jumps within a vsync", within),
        ("jumps of a finished player", finished),
        ("of them with another file", counts.foreign),
        ("jumps refused 1-20", checked),
        ("jumps refused 25", other),
        ("jumps refused 26", index),
        ("jumps refused 27", frame),
    ] {
        let note = driver::note(count);
        writeln!(out, "{name:<32}{count:>12}{note}")?;
    }
    Ok(())
}

/// Writes `jumps.bin`. False if some kind of jump does not occur.
pub fn write_vectors(directory: &str, count: usize, out: &mut impl Write) -> Answer {
    let scripts = vectors::choose(count, 1)?;
    let bytes = vectors::to_bytes(&scripts);
    let mut counts = Counts::default();
    for script in &scripts {
        counts.count(script);
    }
    let (scripts, size, jumps) = (scripts.len(), bytes.len(), counts.jumps());
    let line = format_args!("{scripts} scripts, {jumps} jumps, {size} bytes");
    driver::write_vectors(directory, "jumps", &bytes, line, out)?;
    report(&counts, out)?;
    Ok(counts.all_occurred())
}
