//! How many writes an accepted file makes, counted without making them.
//!
//! An accepted file of a hundred bytes can ask for hundreds of millions of writes, and the original collects those of a
//! vsync in memory. Whoever plays generated files asks here first.

use super::fields;
use super::writer::{OPERATION_SIZES, RECORD_SIZE};

/// The writes of the opening and of all frames, without the closing writes.
///
/// # Panics
/// Possibly, if the file is not accepted.
pub fn writes(accepted: &[u8]) -> u64 {
    let version = accepted[4];
    let frame_count = number(accepted, 8, 4);
    if version == 1 {
        let records = accepted.len() as u64 - 20 - 2 * frame_count;
        return records / RECORD_SIZE as u64;
    }
    let mut walk = Walk {
        file: accepted,
        sizes: &OPERATION_SIZES[usize::from(version > 2)],
        at: number(accepted, 24, 4) as usize,
        writes: 0,
    };
    walk.operations(number(accepted, 16, 4));
    for _ in 0..frame_count {
        let count = number(accepted, walk.at, 2);
        walk.at += 2;
        walk.operations(count);
    }
    walk.writes
}

fn number(file: &[u8], at: usize, width: usize) -> u64 {
    u64::from(fields::number(&file[at..at + width]))
}

struct Walk<'a> {
    file: &'a [u8],
    sizes: &'a [usize; 3],
    at: usize,
    writes: u64,
}

impl Walk<'_> {
    fn operations(&mut self, count: u64) {
        for _ in 0..count {
            let opcode = self.file[self.at];
            let end = self.at + self.sizes[usize::from(opcode)];
            self.writes += match opcode {
                0 => 1,
                1 => number(self.file, end - 5, 4),
                _ => number(self.file, end - 4, 4),
            };
            self.at = end;
        }
    }
}
