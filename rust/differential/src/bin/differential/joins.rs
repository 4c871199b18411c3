//! The library's joining against a definition over values, and joined files against their pieces by the original, for many pairs; and stored
//! joinings.

use crate::Answer;
use crate::driver::{self, Amount, Part};
use differential::joins::pairs::Pairs;
use differential::joins::{self, Counts, limits, vectors};
use std::io::{self, Write};

/// Pairs that a thread joins from one seed before it takes the next.
const SHARE: u64 = 1_000;

/// The pairs that are made without chance, then as many as asked for. False if library, definition and original differ on one, or if
/// some outcome did not occur.
pub fn compare(amount: Amount, out: &mut impl Write) -> Answer {
    let Some(agreement) = driver::compare(amount, SHARE, run, out)? else {
        return Ok(false);
    };
    let counts = &agreement.counts;
    report(counts, out)?;
    let (pairs, Amount { count, seed }) = (counts.pairs(), amount);
    let Counts { vsyncs, writes, .. } = counts;
    let compared = format_args!(
        "{pairs} pairs: {} without chance, {count} of seed {seed}; {vsyncs} vsyncs, {writes} writes",
        pairs - count
    );
    agreement.close(compared, Some((pairs, "pairs")), out)?;
    Ok(counts.all_occurred())
}

/// The part of one thread.
fn run(mut part: Part<'_>) -> Counts {
    let mut counts = Counts::default();
    let mut buffer = Vec::new();
    for index in 0..limits::COUNT {
        if part.takes_next() {
            join(&mut part, limits::made(index), &mut buffer, &mut counts);
        }
    }
    while let Some(share) = part.next_share() {
        let mut pairs = Pairs::new(share.seed);
        for _ in 0..share.count {
            if !join(&mut part, pairs.next_pair(), &mut buffer, &mut counts) {
                return counts;
            }
        }
    }
    counts
}

/// Whether all agree on a pair. The memory of `buffer` is used again.
fn join(
    part: &mut Part<'_>,
    [first, second]: [Vec<u8>; 2],
    buffer: &mut Vec<u8>,
    counts: &mut Counts,
) -> bool {
    let files = [first.as_slice(), second.as_slice()];
    let outcome = part.compare(&files, || joins::join(files, buffer));
    if let Some(outcome) = outcome {
        counts.count(outcome);
    }
    outcome.is_some()
}

/// A line for each outcome.
fn report(counts: &Counts, out: &mut impl Write) -> io::Result<()> {
    for (name, count) in counts.rows() {
        let note = driver::note(count);
        writeln!(out, "{name:32}{count:>10}{note}")?;
    }
    for (name, missing) in ["first", "second"].iter().zip(counts.missing()) {
        if !missing.is_empty() {
            writeln!(out, "  refused {name}, NOT SEEN: {missing:?}")?;
        }
    }
    let (several, too_long) = (counts.several[1], counts.too_long);
    let note = driver::note(several);
    writeln!(
        out,
        "{:32}{several:>10}{note}",
        "  several of 29, 30 and 23"
    )?;
    writeln!(
        out,
        "{:32}{too_long:>10}; each joined pair also with a byte too little: refused 24",
        "accepted only, too long to play"
    )
}

/// Writes `joins.bin`.
pub fn write_vectors(directory: &str, count: usize, out: &mut impl Write) -> Answer {
    let vectors = vectors::choose(count, 1)?;
    let bytes = vectors::to_bytes(&vectors);
    let mut answers: Vec<[u32; 2]> = vectors
        .iter()
        .map(|vector| [vector.file, vector.refusal[0]])
        .collect();
    answers.sort_unstable();
    answers.dedup();
    let numbers = |file| {
        let answers = answers.iter().filter(move |answer| answer[0] == file);
        answers.map(|answer| answer[1]).collect::<Vec<_>>()
    };
    let (count, size) = (vectors.len(), bytes.len());
    let [none, first, second] = [0, 1, 2].map(numbers);
    let counts = format_args!(
        "{count} vectors, {size} bytes, numbers {none:?}, first {first:?}, second {second:?}"
    );
    driver::write_vectors(directory, "joins", &bytes, counts, out)?;
    Ok(true)
}
