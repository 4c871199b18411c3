//! The library's indexes against the places that the original's reader reaches, over many files, and stored indexes.

use crate::Answer;
use crate::driver::{self, Amount, Part};
use differential::generators::shapes::Shape;
use differential::generators::{Choice, Family, Generator};
use differential::indexes::{self, Counts, vectors};
use differential::model::weight;
use std::io::{self, Write};

/// Files that a thread draws from one seed before it takes the next.
const SHARE: u64 = 5_000;

/// Accepted files with more writes in one pass are left out: the original plays them for their places.
const MOST_WRITES: u64 = 100_000;

/// Builds the index of as many accepted files as asked for, and of the refused ones that come between. False if library and original
/// differ, or if some outcome did not occur.
pub fn compare(amount: Amount, out: &mut impl Write) -> Answer {
    let Some(agreement) = driver::compare(amount, SHARE, run, out)? else {
        return Ok(false);
    };
    let counts = &agreement.counts;
    report(counts, out)?;
    let (count, seed) = (counts.all_accepted(), amount.seed);
    let Counts {
        frames, entries, ..
    } = counts;
    agreement.close(
        format_args!("{count} accepted files of seed {seed}: {frames} frames, {entries} entries"),
        Some((count, "files")),
        out,
    )?;
    Ok(counts.all_occurred())
}

/// The part of one thread. Of four files two have up to 800 frames, one is of any shape and one of any family, which is often refused.
fn run(mut part: Part<'_>) -> Counts {
    let mut counts = Counts::default();
    let mut buffer = Vec::new();
    while let Some(share) = part.next_share() {
        let many = Choice {
            shape: Some(Shape::ManyFrames),
            ..Choice::of(Family::Valid)
        };
        let mut generators = [many.clone(), Choice::of(Family::Valid), many, Choice::ANY]
            .map(|choice| Generator::new(share.seed, choice));
        let mut done = 0;
        while done < share.count {
            let file = generators[(done % 4) as usize].next_file();
            let is_accepted = sgub::check(file).is_ok();
            if is_accepted && weight::writes(file) > MOST_WRITES {
                continue;
            }
            let outcome = part.compare(&[file], || indexes::index(file, &mut buffer));
            let Some(outcome) = outcome else {
                return counts;
            };
            counts.count(file, outcome);
            done += u64::from(is_accepted);
        }
    }
    counts
}

/// A line for each version, for the long indexes, and for the refusals.
fn report(counts: &Counts, out: &mut impl Write) -> io::Result<()> {
    driver::versions("indexed once", counts.accepted, out)?;
    let Counts { long, refused, .. } = counts;
    let note = driver::note(*long);
    writeln!(
        out,
        "more than one entry {long:>10}{note}; each index also into a byte too little: refused 24"
    )?;
    let note = driver::note(*refused);
    writeln!(out, "refused 1-20        {refused:>10}{note}")
}

/// Writes `indexes.bin`.
pub fn write_vectors(directory: &str, count: usize, out: &mut impl Write) -> Answer {
    let vectors = vectors::choose(count, 1)?;
    let bytes = vectors::to_bytes(&vectors);
    driver::write_answers(directory, "indexes", &vectors, &bytes, out)?;
    Ok(true)
}
