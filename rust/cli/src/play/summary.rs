//! How many writes each vsync has, by target, with a bar to look over.

use sgub::WriteRecord;
use std::fmt::Display;
use std::io::{self, Write};

/// Writes by target, 0 to 11: rule 15 of the format sheet refuses every other.
type Counts = [u64; 12];

/// The counts of the vsync that is playing, and of all before it.
pub struct Summary {
    vsync: Counts,
    all: Counts,
}

/// What the columns are.
const HEAD: &str = "  vsync    writes  twice as many: a # more  target:writes";

/// The longest bar: a # for each binary digit of a count.
const BAR: &str = "################################################################";

/// Prints what the columns are.
pub fn head(out: &mut impl Write) -> io::Result<()> {
    writeln!(out, "{HEAD}")
}

impl Summary {
    /// Nothing was played.
    pub fn new() -> Self {
        Self {
            vsync: [0; 12],
            all: [0; 12],
        }
    }

    /// Counts the writes of a call.
    pub fn add(&mut self, writes: &[WriteRecord]) {
        for write in writes {
            self.vsync[usize::from(write.target)] += 1;
        }
    }

    /// Prints the vsync, which is over.
    pub fn vsync(&mut self, out: &mut impl Write, number: u64) -> io::Result<()> {
        row(out, number, &self.vsync)?;
        for (all, vsync) in self.all.iter_mut().zip(&mut self.vsync) {
            *all += std::mem::take(vsync);
        }
        Ok(())
    }

    /// Prints the sum of all vsyncs.
    pub fn total(&self, out: &mut impl Write) -> io::Result<()> {
        row(out, "all", &self.all)
    }
}

/// A row of the table, with no spaces at its end.
fn row(out: &mut impl Write, name: impl Display, counts: &Counts) -> io::Result<()> {
    let writes: u64 = counts.iter().sum();
    write!(out, "{name:>7} {writes:>9}")?;
    if writes > 0 {
        let bar = &BAR[..writes.ilog2() as usize + 1];
        write!(out, "  {bar:<23} ")?;
    }
    for (target, count) in counts.iter().enumerate().filter(|(_, count)| **count > 0) {
        write!(out, " {target}:{count}")?;
    }
    writeln!(out)
}
