//! The original is what it was, and the oracle tells what it does.

mod original;
mod player;
mod repacker;
