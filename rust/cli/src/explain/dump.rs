//! Bytes of a file in hexadecimal, sixteen in a row.

use std::ops::Range;

const ROW: usize = 16;

/// Rows before and behind the one of a place.
const AROUND: usize = 2;

/// The rows around a place, which stands in brackets. A place at the file's end has no byte, and `--` stands for it.
pub fn around(file: &[u8], place: usize) -> String {
    let row = place / ROW;
    let first = row.saturating_sub(AROUND) * ROW;
    // A place at the end of a whole row has a row of its own.
    let behind = file.len().max(place + 1).min((row + AROUND + 1) * ROW);
    rows(file, first..behind, Some(place))
}

/// The rows of the first `length` bytes.
pub fn start(file: &[u8], length: usize) -> String {
    rows(file, 0..length.min(file.len()), None)
}

fn rows(file: &[u8], places: Range<usize>, marked: Option<usize>) -> String {
    let columns: String = (0..ROW).map(|column| format!(" {column:2X}")).collect();
    let mut text = format!("           {columns}\n");
    let file = &file[..places.end.min(file.len())];
    for at in places.step_by(ROW) {
        let bytes = &file[at.min(file.len())..];
        let marked = marked.and_then(|place| place.checked_sub(at));
        text += row(at, &bytes[..bytes.len().min(ROW)], marked).trim_end();
        text.push('\n');
    }
    text
}

/// One row, with the column that is marked, if it is in this row.
fn row(at: usize, bytes: &[u8], marked: Option<usize>) -> String {
    let mut text = format!("  0x{at:06X} ");
    let mut before = ' ';
    for column in 0..ROW {
        let is_marked = marked == Some(column);
        text.push(if is_marked { '[' } else { before });
        text += &match bytes.get(column) {
            Some(byte) => format!("{byte:02X}"),
            None => String::from(if is_marked { "--" } else { "  " }),
        };
        before = if is_marked { ']' } else { ' ' };
    }
    text.push(before);
    text.push(' ');
    text.extend(bytes.iter().map(|byte| match byte {
        0x20..=0x7E => char::from(*byte),
        _ => '.',
    }));
    text
}

#[cfg(test)]
mod tests {
    use super::*;

    const COLUMNS: &str = "             0  1  2  3  4  5  6  7  8  9  A  B  C  D  E  F\n";

    fn file(length: u8) -> Vec<u8> {
        (b'A'..).take(usize::from(length)).collect()
    }

    fn lines(text: &str) -> Vec<&str> {
        text.strip_prefix(COLUMNS).unwrap().lines().collect()
    }

    #[test]
    fn the_place_is_in_brackets() {
        assert_eq!(
            lines(&around(&file(18), 2)),
            [
                "  0x000000  41 42[43]44 45 46 47 48 49 4A 4B 4C 4D 4E 4F 50  ABCDEFGHIJKLMNOP",
                "  0x000010  51 52                                            QR",
            ]
        );
        assert_eq!(
            lines(&around(&file(18), 15))[0],
            "  0x000000  41 42 43 44 45 46 47 48 49 4A 4B 4C 4D 4E 4F[50] ABCDEFGHIJKLMNOP"
        );
    }

    #[test]
    fn a_place_at_the_end_is_shown() {
        assert_eq!(
            lines(&around(&file(2), 2)),
            ["  0x000000  41 42[--]                                        AB"]
        );
        let text = around(&file(16), 16);
        assert_eq!(lines(&text)[1], "  0x000010 [--]");
        assert_eq!(lines(&around(&[], 0)), ["  0x000000 [--]"]);
    }

    #[test]
    fn rows_far_away_are_left_out() {
        let file = [0; 1000];
        let text = around(&file, 500);
        let rows: Vec<&str> = lines(&text).iter().map(|line| &line[2..10]).collect();
        assert_eq!(
            rows,
            ["0x0001D0", "0x0001E0", "0x0001F0", "0x000200", "0x000210"]
        );
    }
}
