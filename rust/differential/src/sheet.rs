//! Files that the format sheet gives an answer for: its examples P1 to P11 and the frame periods.

use crate::model::{Operation, PCM, Stream};

/// An answer: number and place (0 and 0 for an accepted file), then version, frame count and opening count (0 for a refused
/// file).
pub type Answer = [u32; 5];

/// A file with the answer that the sheet gives.
pub struct Row {
    /// The example's name.
    pub name: &'static str,
    /// The file.
    pub file: Vec<u8>,
    /// The sheet's answer.
    pub answer: Answer,
}

const fn refused(number: u32, place: u32) -> Answer {
    [number, place, 0, 0, 0]
}

/// An accepted file with one frame.
const fn accepted(version: u32, opening: u32) -> Answer {
    [0, 0, version, 1, opening]
}

/// All of them.
pub fn rows() -> Vec<Row> {
    let row = |name, file, answer| Row { name, file, answer };
    let empty_frame = |version| Stream::empty_frame(version).to_bytes();
    let write =
        |version, target, address| opening(version, Operation::write(target, address, 0x55));
    let fill = |version, length| opening(version, Operation::fill(0, 0x7ff, length, 0));
    let mut rows = vec![
        row("P1", Vec::new(), refused(1, 0)),
        row("P2", b"SGUB".to_vec(), refused(1, 0)),
        row("P3", empty_frame(1), accepted(1, 0)),
        row("P4", p3_with(11, 0), refused(8, 0)),
        row("P5", p3_with(5, 15), refused(4, 0)),
        row("P6", p3_with(4, 5), refused(3, 0)),
        row("P7", empty_frame(2), accepted(2, 0)),
        row("P9", write(1, 3, 0), refused(15, 20)),
        row("P11 at 0", write(1, PCM, 0), accepted(1, 1)),
        row("P11 at 1", write(1, PCM, 1), accepted(1, 1)),
        row("period 0", period(0), accepted(4, 0)),
        row("period 48,000", period(48_000), accepted(4, 0)),
        row("period 47,999", period(47_999), refused(6, 0)),
        row("period 48,000,000", period(48_000_000), accepted(4, 0)),
        row("period 48,000,001", period(48_000_001), refused(6, 0)),
    ];
    for (version, opening) in [(1, 20), (2, 40), (3, 40), (4, 48)] {
        let passes = accepted(u32::from(version), 1);
        rows.push(row("P8 at 0x8FF", write(version, 1, 0x8ff), passes));
        rows.push(row(
            "P8 at 0x900",
            write(version, 1, 0x900),
            refused(16, opening),
        ));
        if version > 1 {
            rows.push(row("P10, length 1", fill(version, 1), passes));
            rows.push(row("P10, length 2", fill(version, 2), refused(17, opening)));
        }
    }
    rows
}

/// P3 with one byte changed.
fn p3_with(at: usize, value: u8) -> Vec<u8> {
    let mut file = Stream::empty_frame(1).to_bytes();
    file[at] = value;
    file
}

/// One operation in the opening, and one empty frame.
pub fn opening(version: u8, operation: Operation) -> Vec<u8> {
    let mut stream = Stream::empty_frame(version);
    stream.opening.push(operation);
    stream.to_bytes()
}

fn period(period: u32) -> Vec<u8> {
    let mut stream = Stream::empty_frame(4);
    stream.period = period;
    stream.to_bytes()
}
