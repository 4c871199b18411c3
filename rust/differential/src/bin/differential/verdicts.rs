//! The library's verdicts against the original's over many files, and stored ones.

use crate::Answer;
use crate::driver::{self, Amount, Part};
use differential::generators::{Choice, Generator, extremes, short};
use differential::verdicts::{self, Counts, vectors};
use std::io::{self, Write};

/// Files that a thread draws from one seed before it takes the next.
const SHARE: u64 = 50_000;

/// All files that are made without chance, short and long, then those that are asked for. False if the two differ on one, or
/// if some number or version did not occur.
pub fn compare(amount: Amount, out: &mut impl Write) -> Answer {
    let Some(agreement) = driver::compare(amount, SHARE, run, out)? else {
        return Ok(false);
    };
    let counts = &agreement.counts;
    report(counts, out)?;
    let files = counts.files();
    agreement.close(amount.among(files), Some((files, "files")), out)?;
    Ok(counts.all_occurred())
}

/// The part of one thread.
fn run(mut part: Part<'_>) -> Counts {
    let mut counts = Counts::default();
    let mut visit = |file: &[u8]| {
        if part.takes_next() {
            judge(&mut part, file, &mut counts);
        }
    };
    short::for_each(&mut visit);
    extremes::for_each(&mut visit);
    while let Some(share) = part.next_share() {
        let mut generator = Generator::new(share.seed, Choice::ANY);
        for _ in 0..share.count {
            if !judge(&mut part, generator.next_file(), &mut counts) {
                return counts;
            }
        }
    }
    counts
}

/// Whether the two agree on a file.
fn judge(part: &mut Part<'_>, file: &[u8], counts: &mut Counts) -> bool {
    let verdict = part.compare(&[file], || verdicts::verdict(file));
    if let Some(verdict) = &verdict {
        counts.count(verdict);
    }
    verdict.is_some()
}

/// A line for each version and number.
fn report(counts: &Counts, out: &mut impl Write) -> io::Result<()> {
    let mut rows = |name: &str, counts: &[u64]| {
        for (count, number) in counts.iter().zip(1..) {
            let note = driver::note(*count);
            writeln!(out, "{name:17} {number:2} {count:>12}{note}")?;
        }
        Ok(())
    };
    rows("accepted, version", &counts.accepted)?;
    rows("refused, number", &counts.refused)
}

/// Writes `verdicts.bin`. False if there are not as many vectors as asked for.
pub fn write_vectors(directory: &str, count: usize, out: &mut impl Write) -> Answer {
    let vectors = vectors::choose(count, 1)?;
    let bytes = vectors::to_bytes(&vectors);
    let counts = format_args!("{} vectors, {} bytes", vectors.len(), bytes.len());
    driver::write_vectors(directory, "verdicts", &bytes, counts, out)?;
    Ok(vectors.len() == count)
}
