//! The original reader, player and repacker of SGUB files as an oracle, generators of files to ask it about, and the
//! comparison of the library with it.
#![forbid(unsafe_code)]
#![warn(missing_docs)]

pub mod comparisons;
pub mod examples;
pub mod generators;
pub mod indexes;
pub mod joins;
pub mod jumps;
pub mod lent;
pub mod model;
pub mod oracle;
pub mod pitches;
pub mod plays;
pub mod repacks;
pub mod rng;
pub mod sheet;
pub mod stored;
pub mod verdicts;

// The original names its surroundings by these paths.
use oracle::{devices, wav};
