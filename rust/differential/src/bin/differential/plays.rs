//! The library's player against the original's over many files, and stored plays.

use crate::Answer;
use crate::driver::{self, Amount, Part};
use differential::generators::{Choice, Family, Generator};
use differential::model::weight;
use differential::oracle;
use differential::plays::{Counts, Plays, vectors};
use std::io::Write;

/// Files that a thread plays from one seed before it takes the next.
const SHARE: u64 = 5_000;

/// Files with more writes in one pass are not played.
const MOST_WRITES: u64 = 100_000;

/// Plays accepted files, as many as asked for, in both. False if the two differ, or if a version did not occur.
pub fn compare(amount: Amount, out: &mut impl Write) -> Answer {
    let Some(agreement) = driver::compare(amount, SHARE, run, out)? else {
        return Ok(false);
    };
    let counts = &agreement.counts;
    driver::versions("played once", counts.files, out)?;
    let Amount { count, seed } = amount;
    let Counts {
        vsyncs,
        calls,
        writes,
        foreign,
        ..
    } = counts;
    agreement.close(
        format_args!(
            "{count} files of seed {seed}: {vsyncs} vsyncs, {writes} writes in {calls} calls, {foreign} calls refused"
        ),
        Some((count, "files")),
        out,
    )?;
    Ok(counts.all_occurred())
}

/// The part of one thread. Of the files half are drawn at the limits of the sheet.
fn run(mut part: Part<'_>) -> Counts {
    let mut counts = Counts::default();
    while let Some(share) = part.next_share() {
        let mut plays = Plays::new(share.seed);
        let mut generators = [Family::Valid, Family::Boundary]
            .map(|family| Generator::new(share.seed, Choice::of(family)));
        let mut done = 0;
        while done < share.count {
            let file = generators[(done % 2) as usize].next_file();
            if oracle::judge(file).is_err() || weight::writes(file) > MOST_WRITES {
                continue;
            }
            if part.compare(&[file], || plays.play(file)).is_none() {
                break;
            }
            done += 1;
        }
        counts += plays.counts();
    }
    counts
}

/// Writes `plays.bin`. False if no call of its scripts is refused.
pub fn write_vectors(directory: &str, count: usize, out: &mut impl Write) -> Answer {
    let scripts = vectors::choose(count, 1)?;
    let bytes = vectors::to_bytes(&scripts);
    let calls = || scripts.iter().flat_map(|script| &script.calls);
    let refused = calls().filter(|call| call.refused).count();
    let counts = format_args!(
        "{} scripts, {} calls, {refused} of them refused, {} bytes",
        scripts.len(),
        calls().count(),
        bytes.len()
    );
    driver::write_vectors(directory, "plays", &bytes, counts, out)?;
    Ok(refused > 0)
}
