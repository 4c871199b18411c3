//! The library's repacking against the original's over many masters, and stored repackings.

use crate::Answer;
use crate::driver::{self, Amount, Part};
use differential::generators::masters::{self, Masters};
use differential::generators::{Choice, Generator};
use differential::repacks::{self, Counts, vectors};
use std::io::{self, Write};

/// Masters that a thread draws from one seed before it takes the next.
const SHARE: u64 = 2_000;

/// Of so many files one is of any version and family: most of these are refused.
const OTHERS: u64 = 16;

/// The masters that are made without chance, then the files that are asked for. False if the two differ on one, or if some
/// outcome did not occur.
pub fn compare(amount: Amount, out: &mut impl Write) -> Answer {
    let Some(agreement) = driver::compare(amount, SHARE, run, out)? else {
        return Ok(false);
    };
    let counts = &agreement.counts;
    report(counts, out)?;
    agreement.close(amount.among(counts.files()), None, out)?;
    Ok(counts.all_occurred())
}

/// The part of one thread.
fn run(mut part: Part<'_>) -> Counts {
    let mut counts = Counts::default();
    let mut buffer = Vec::new();
    masters::for_each(|file| {
        if part.takes_next() {
            repack(&mut part, file, &mut buffer, &mut counts);
        }
    });
    while let Some(share) = part.next_share() {
        let mut masters = Masters::new(share.seed);
        let mut others = Generator::new(share.seed, Choice::ANY);
        for index in 0..share.count {
            let file = match index % OTHERS {
                0 => others.next_file(),
                _ => masters.next_file(),
            };
            if !repack(&mut part, file, &mut buffer, &mut counts) {
                return counts;
            }
        }
    }
    counts
}

/// Whether the two agree on a file. The memory of `buffer` is used again.
fn repack(part: &mut Part<'_>, file: &[u8], buffer: &mut Vec<u8>, counts: &mut Counts) -> bool {
    let outcome = part.compare(&[file], || repacks::repack(file, buffer));
    if let Some(outcome) = outcome {
        counts.count(outcome);
    }
    outcome.is_some()
}

/// A line for the results, and for each refusal of repacking alone.
fn report(counts: &Counts, out: &mut impl Write) -> io::Result<()> {
    let Counts {
        written,
        bytes,
        longest,
        ..
    } = counts;
    writeln!(
        out,
        "repacked    {written:>12}, {bytes} bytes, the longest {longest}; each also into a byte too little: refused 24"
    )?;
    let (checked, own) = counts.refused();
    writeln!(out, "refused 1-20{checked:>12}")?;
    for (count, number) in own.iter().zip(21..) {
        let note = driver::note(*count);
        writeln!(out, "refused {number}  {count:>12}{note}")?;
    }
    Ok(())
}

/// Writes `repacks.bin`.
pub fn write_vectors(directory: &str, count: usize, out: &mut impl Write) -> Answer {
    let vectors = vectors::choose(count, 1)?;
    let bytes = vectors::to_bytes(&vectors);
    driver::write_answers(directory, "repacks", &vectors, &bytes, out)?;
    Ok(true)
}
