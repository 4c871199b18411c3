//! Plain text for a terminal.

/// Columns of a line of words.
pub const WIDTH: usize = 88;

/// Words in lines of at most [`WIDTH`] columns, the second and later ones indented.
pub fn wrapped(words: &str, indent: usize) -> String {
    let mut text = String::new();
    let mut column = 0;
    for word in words.split_whitespace() {
        let length = word.chars().count();
        if column > 0 && column + 1 + length > WIDTH {
            text.push('\n');
            text += &" ".repeat(indent);
            column = indent;
        } else if column > 0 {
            text.push(' ');
            column += 1;
        }
        text += word;
        column += length;
    }
    text.push('\n');
    text
}

/// A number, and its hexadecimal form where that is another.
pub fn number(value: u32) -> String {
    if value < 10 {
        value.to_string()
    } else {
        format!("{value} (0x{value:X})")
    }
}

/// Bytes as letters in quotes, with escapes for those that are none.
pub fn quoted(bytes: &[u8]) -> String {
    format!("\"{}\"", bytes.escape_ascii())
}

#[cfg(test)]
mod tests {
    use super::*;

    #[test]
    fn lines_stay_within_the_width() {
        let words = "word ".repeat(100);
        let text = wrapped(&words, 4);
        assert!(text.lines().all(|line| line.len() <= WIDTH));
        assert!(
            text.lines()
                .skip(1)
                .all(|line| line.starts_with("    word"))
        );
        assert_eq!(text.split_whitespace().count(), 100);
        assert_eq!(wrapped("one two", 4), "one two\n");
    }
}
