//! What the command `sgub` finds out by itself: where two files differ that the library told apart. The verdict on the two is always
//! the library's.
#![forbid(unsafe_code)]
#![warn(missing_docs)]

mod difference;

pub use difference::{Difference, first_difference};
