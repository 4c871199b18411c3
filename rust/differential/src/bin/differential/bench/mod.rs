//! How long original and library take on large files: what the benchmarks share.

pub mod comparisons;
pub mod joins;
pub mod jumps;
pub mod pitches;
pub mod plays;
pub mod repacks;
pub mod verdicts;

use differential::generators::shapes::Large;
use std::hint::black_box;
use std::io::{self, Write};
use std::time::{Duration, Instant};

/// Bytes of a file.
const BYTES: usize = 10_000_000;

/// What a call gives, and how long it took; what it gives is dropped outside of that time.
fn timed<T>(call: impl FnOnce() -> T) -> (Duration, T) {
    let start = Instant::now();
    let result = black_box(call());
    (start.elapsed(), result)
}

/// The head of a table of both times.
fn head(what: &str, out: &mut impl Write) -> io::Result<()> {
    writeln!(
        out,
        "| {what} | original, ms | library, ms | ratio |\n|---|---:|---:|---:|"
    )
}

/// A row of it. False if the library is slower than the original.
fn row(name: &str, times: [Duration; 2], out: &mut impl Write) -> io::Result<bool> {
    let [original, library] = times.map(milliseconds);
    let ratio = original / library;
    writeln!(
        out,
        "| {name} | {original:.2} | {library:.2} | {ratio:.2} |"
    )?;
    out.flush()?;
    Ok(ratio >= 1.0)
}

fn milliseconds(time: Duration) -> f64 {
    time.as_secs_f64() * 1e3
}

/// A shape in words.
fn name(shape: Large) -> &'static str {
    match shape {
        Large::V1Records => "version 1, records",
        Large::V1EmptyFrames => "version 1, empty frames",
        Large::V1Waves => "version 1, wave uploads",
        Large::V1Pcm => "version 1, 1 MiB of PCM",
        Large::V2Writes => "version 2, WRITEs",
        Large::V2WaveCopies => "version 2, wave COPYs",
        Large::V2Pools => "version 2, 65,536 pools",
        Large::V3Writes => "version 3, WRITEs",
        Large::V4Writes => "version 4, WRITEs",
        Large::V4Cards => "version 4, cards, target 11, FILLs",
    }
}
