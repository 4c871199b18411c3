//! The library's comparison against the sheet's rule over what the original plays, for many pairs, and stored comparisons.

use crate::Answer;
use crate::driver::{self, Amount, Part};
use differential::comparisons::pairs::Pairs;
use differential::comparisons::{BEHIND, Comparisons, Counts, vectors};
use std::io::{self, Write};

/// Pairs that a thread compares from one seed before it takes the next.
const SHARE: u64 = 1_000;

/// Compares as many pairs as asked for. False if library and original differ on one, or if some outcome did not occur.
pub fn compare(amount: Amount, out: &mut impl Write) -> Answer {
    let Some(agreement) = driver::compare(amount, SHARE, run, out)? else {
        return Ok(false);
    };
    let counts = &agreement.counts;
    report(counts, out)?;
    let Amount { count, seed } = amount;
    let compared = format_args!("{count} pairs of seed {seed}");
    agreement.close(compared, Some((count, "pairs")), out)?;
    Ok(counts.all_occurred())
}

/// The part of one thread.
fn run(mut part: Part<'_>) -> Counts {
    let mut counts = Counts::default();
    while let Some(share) = part.next_share() {
        let mut pairs = Pairs::new(share.seed);
        let mut comparisons = Comparisons::new(share.seed);
        for index in 0..share.count as usize {
            let (kind, [master, other]) = pairs.next_pair();
            let files = [master.as_slice(), other.as_slice()];
            let behind = [index % BEHIND, index / BEHIND % BEHIND];
            let Some(outcome) = part.compare(&files, || comparisons.compare(files, behind)) else {
                return counts;
            };
            counts.count(kind, outcome);
        }
    }
    counts
}

/// A line for each outcome.
fn report(counts: &Counts, out: &mut impl Write) -> io::Result<()> {
    for (name, count) in counts.rows() {
        let note = driver::note(count);
        writeln!(out, "{name:28}{count:>10}{note}")?;
    }
    writeln!(
        out,
        "{:28}{:>10}; one pair in eight also with an image a byte too short: refused 24",
        "left out, too many writes", counts.too_long
    )
}

/// Writes `compares.bin`.
pub fn write_vectors(directory: &str, count: usize, out: &mut impl Write) -> Answer {
    let vectors = vectors::choose(count, 1)?;
    let bytes = vectors::to_bytes(&vectors);
    let passed = vectors.iter().filter(|vector| vector.passed).count();
    let refused = vectors.iter().filter(|vector| vector.file > 0).count();
    let (count, size) = (vectors.len(), bytes.len());
    let failed = count - passed - refused;
    let counts = format_args!(
        "{count} vectors, {size} bytes: {passed} passed, {failed} failed, {refused} refused"
    );
    driver::write_vectors(directory, "compares", &bytes, counts, out)?;
    Ok(true)
}
