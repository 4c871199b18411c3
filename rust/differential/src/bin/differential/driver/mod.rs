//! What the drivers of all comparisons share: a comparison runs on all cores, stops at the first difference, and closes with a
//! line; vectors are written into a file.

mod work;

pub use work::Part;

use differential::lent::Vector;
use std::fmt::{Arguments, Display};
use std::io::{self, Write};
use std::num::NonZero;
use std::ops::AddAssign;
use std::path::Path;
use std::time::Instant;
use std::{fs, thread};
use work::Work;

/// So many files, or pairs of files, of a seed: what `COUNT [SEED]` asks for, and what a thread takes of it at a time.
#[derive(Clone, Copy)]
pub struct Amount {
    pub count: u64,
    pub seed: u64,
}

impl Amount {
    /// All files that were compared, in words: those that are made without chance, and these.
    pub fn among(self, files: u64) -> String {
        let Self { count, seed } = self;
        let others = files - count;
        format!("{files} files: {others} without chance, {count} of seed {seed}")
    }
}

/// A comparison without a difference.
pub struct Agreement<C> {
    /// What all threads counted.
    pub counts: C,
    seconds: f64,
    threads: usize,
}

/// Has all cores compare what is asked for: each thread does its part, takes so many files at a time and counts, and the
/// counts are added up. None where library and original differ, which is printed.
pub fn compare<C: Default + AddAssign + Send>(
    amount: Amount,
    share: u64,
    run: impl Fn(Part<'_>) -> C + Sync,
    out: &mut impl Write,
) -> io::Result<Option<Agreement<C>>> {
    let threads = thread::available_parallelism().map_or(1, NonZero::get);
    let start = Instant::now();
    let work = Work::new(amount, share);
    let mut counts = C::default();
    for part in work.on(threads, run) {
        counts += part;
    }
    if work.differs(out)? {
        return Ok(None);
    }
    Ok(Some(Agreement {
        counts,
        seconds: start.elapsed().as_secs_f64(),
        threads,
    }))
}

impl<C> Agreement<C> {
    /// Prints the closing line: what was compared and how long it took, and for a number of things how many a second.
    pub fn close(
        &self,
        compared: impl Display,
        speed: Option<(u64, &str)>,
        out: &mut impl Write,
    ) -> io::Result<()> {
        let Self {
            seconds, threads, ..
        } = self;
        write!(
            out,
            "no difference in {compared}; {seconds:.1} s, {threads} threads"
        )?;
        if let Some((count, things)) = speed {
            write!(out, ", {:.0} {things} a second", count as f64 / seconds)?;
        }
        writeln!(out)
    }
}

/// What stands behind a count of something that has to occur.
pub fn note(count: u64) -> &'static str {
    if count == 0 { "  NOT SEEN" } else { "" }
}

/// A line for each version: how many of its files do not repeat, and how many do.
pub fn versions(once: &str, counts: [[u64; 4]; 2], out: &mut impl Write) -> io::Result<()> {
    writeln!(out, "{:8}{once:>14}{:>14}", "version", "repeating")?;
    let [once, repeating] = counts;
    for (version, (once, repeating)) in (1..).zip(once.iter().zip(repeating)) {
        writeln!(out, "{version:<8}{once:>14}{repeating:>14}")?;
    }
    Ok(())
}

/// Writes the stored answers of calls that write into lent memory, and prints which numbers they have.
pub fn write_answers(
    directory: &str,
    name: &str,
    vectors: &[Vector],
    bytes: &[u8],
    out: &mut impl Write,
) -> io::Result<()> {
    let mut numbers: Vec<u32> = vectors.iter().map(|vector| vector.refusal[0]).collect();
    numbers.sort_unstable();
    numbers.dedup();
    let (count, size) = (vectors.len(), bytes.len());
    let counts = format_args!("{count} vectors, {size} bytes, numbers {numbers:?}");
    write_vectors(directory, name, bytes, counts, out)
}

/// Writes stored vectors into the file NAME.bin of a directory, and prints the counts.
pub fn write_vectors(
    directory: &str,
    name: &str,
    bytes: &[u8],
    counts: Arguments<'_>,
    out: &mut impl Write,
) -> io::Result<()> {
    fs::create_dir_all(directory)?;
    fs::write(Path::new(directory).join(format!("{name}.bin")), bytes)?;
    writeln!(out, "{counts}")
}
