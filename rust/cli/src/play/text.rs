//! A call and its writes as text.

use sgub::WriteRecord;
use std::io::{self, Write};

/// The longest line of a write: three numbers of 3, 10 and 3 digits.
const LINE: usize = 19;

/// Prints the line of a call, then a line for each of its writes.
pub fn call(
    out: &mut impl Write,
    vsync: u64,
    writes: &[WriteRecord],
    complete: bool,
) -> io::Result<()> {
    let ending = if complete { "complete" } else { "more" };
    writeln!(out, "vsync {vsync} {} {ending}", writes.len())?;
    for write in writes {
        let mut line = Line {
            text: [0; LINE],
            start: LINE,
        };
        line.put(b'\n');
        line.number(u32::from(write.value));
        line.put(b' ');
        line.number(write.address);
        line.put(b' ');
        line.number(u32::from(write.target));
        out.write_all(&line.text[line.start..])?;
    }
    Ok(())
}

/// A line that is made from its end. A file has millions of writes, and this takes a third of the time of `writeln!`.
struct Line {
    text: [u8; LINE],
    start: usize,
}

impl Line {
    fn put(&mut self, byte: u8) {
        self.start -= 1;
        self.text[self.start] = byte;
    }

    /// The decimal digits of a number.
    fn number(&mut self, mut number: u32) {
        loop {
            self.put(b'0' + (number % 10) as u8);
            number /= 10;
            if number == 0 {
                return;
            }
        }
    }
}

#[cfg(test)]
mod tests {
    use super::*;

    fn text(target: u8, address: u32, value: u8) -> String {
        let write = WriteRecord {
            target,
            address,
            value,
        };
        let mut out = Vec::new();
        call(&mut out, 7, &[write], true).unwrap();
        String::from_utf8(out).unwrap()
    }

    #[test]
    fn numbers_are_decimal() {
        assert_eq!(text(0, 0, 0), "vsync 7 1 complete\n0 0 0\n");
        assert_eq!(text(11, 2057, 10), "vsync 7 1 complete\n11 2057 10\n");
        let longest = "vsync 7 1 complete\n255 4294967295 255\n";
        assert_eq!(text(u8::MAX, u32::MAX, u8::MAX), longest);
    }
}
