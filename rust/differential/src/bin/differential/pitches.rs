//! The library's pitches against the original's, and the stored ones.

use crate::{Answer, driver};
use differential::pitches::{self, Counts, vectors};
use std::io::Write;

/// Compares all pairs of a note and a shift. False if library and original differ.
pub fn compare(out: &mut impl Write) -> Answer {
    match pitches::compare(sgub::frequency) {
        Ok(Counts { pitches, refused }) => {
            writeln!(
                out,
                "no difference in {} pairs of a note and a shift: {pitches} pitches, {refused} refused 28",
                pitches + refused
            )?;
            Ok(true)
        }
        Err(difference) => {
            writeln!(out, "DIFFERENT: {difference}")?;
            Ok(false)
        }
    }
}

/// Writes `pitches.bin`.
pub fn write_vectors(directory: &str, out: &mut impl Write) -> Answer {
    let bytes = vectors::to_bytes();
    let (count, size) = (vectors::choose().count(), bytes.len());
    let counts = format_args!("{count} vectors, {size} bytes");
    driver::write_vectors(directory, "pitches", &bytes, counts, out)?;
    Ok(true)
}
