//! `sgub pitch NOTE [SHIFT]`: the pitch register of a note. `sgub pitch` alone: those of all notes, as a table.

use crate::status::{Failure, Status};
use std::ffi::{OsStr, OsString};
use std::io::Write;

/// The names of an octave's notes.
const NAMES: [&str; 12] = [
    "C", "C#", "D", "D#", "E", "F", "F#", "G", "G#", "A", "A#", "B",
];

/// How many they are.
const OCTAVE: usize = NAMES.len();

/// Notes in a column of the table: three octaves, so that four columns have room for all.
const COLUMN: usize = 3 * OCTAVE;

/// All notes.
const NOTES: usize = 128;

/// What stands between two columns of the table.
const GAP: &str = "    ";

/// Prints the pitch of a note, or the table. A number may begin with a sign, so no word is an option; a `--` is passed over.
pub fn run(arguments: &[OsString], out: &mut impl Write) -> Result<Status, Failure> {
    let mut words: Vec<&OsString> = arguments.iter().collect();
    if let Some(at) = words.iter().position(|word| *word == "--") {
        words.remove(at);
    }
    match words[..] {
        [] => table(out),
        [note] => one(whole_number(note)?, 0, out),
        [note, shift] => one(whole_number(note)?, whole_number(shift)?, out),
        _ => Err(Failure::usage("pitch takes a note and, if any, a shift")),
    }
}

/// A whole number of any length. One that no `i64` holds becomes the nearest that it holds: no note and no shift is near that.
fn whole_number(word: &OsStr) -> Result<i64, Failure> {
    let no_number = || Failure::usage(format!("{} is no whole number", word.display()));
    let text = word.to_str().ok_or_else(no_number)?;
    let digits = text.strip_prefix(['+', '-']).unwrap_or(text);
    if digits.is_empty() || !digits.bytes().all(|digit| digit.is_ascii_digit()) {
        return Err(no_number());
    }
    let nearest = if text.starts_with('-') {
        i64::MIN
    } else {
        i64::MAX
    };
    Ok(text.parse().unwrap_or(nearest))
}

/// The pitch or the refusal, which the library gives too for a number that its types do not hold: the greatest of a type is out of range.
fn one(note: i64, shift: i64, out: &mut impl Write) -> Result<Status, Failure> {
    let note = u8::try_from(note).unwrap_or(u8::MAX);
    let shift = i8::try_from(shift).unwrap_or(i8::MAX);
    match sgub::frequency(note, shift) {
        Ok(pitch) => {
            writeln!(out, "{pitch}")?;
            Ok(Status::Accepted)
        }
        Err(refusal) => {
            writeln!(out, "{refusal}")?;
            Ok(Status::Refused)
        }
    }
}

/// All notes with their names and pitches. A line has one name in several octaves.
fn table(out: &mut impl Write) -> Result<Status, Failure> {
    writeln!(out, "The pitch register of each note; A4 is note 69.\n")?;
    let head = ["note name pitch"; NOTES.div_ceil(COLUMN)];
    writeln!(out, "{}", head.join(GAP))?;
    for row in 0..COLUMN {
        if row > 0 && row % OCTAVE == 0 {
            writeln!(out)?;
        }
        let cells: Vec<String> = (row..NOTES).step_by(COLUMN).map(cell).collect();
        writeln!(out, "{}", cells.join(GAP))?;
    }
    Ok(Status::Accepted)
}

/// A note below 128 in the table.
fn cell(note: usize) -> String {
    let pitch = sgub::frequency(note as u8, 0).expect("a note below 128 has a pitch");
    format!("{note:>4} {:<4} {pitch:>5}", name(note))
}

/// The name of a note; the octave of note 0 is -1.
fn name(note: usize) -> String {
    let octave = (note / OCTAVE) as i64 - 1;
    format!("{}{octave}", NAMES[note % OCTAVE])
}

#[cfg(test)]
mod tests {
    use super::*;

    #[test]
    fn names_are_those_of_the_octaves() {
        for (note, expected) in [(0, "C-1"), (1, "C#-1"), (60, "C4"), (69, "A4"), (127, "G9")] {
            assert_eq!(name(note), expected);
        }
    }

    #[test]
    fn a_whole_number_may_have_a_sign_and_any_length() {
        let number = |text: &str| whole_number(text.as_ref()).ok();
        for (text, expected) in [
            ("0", 0),
            ("-0", 0),
            ("+12", 12),
            ("-48", -48),
            ("0000000000000000000000069", 69),
            ("9223372036854775808", i64::MAX),
            ("-9223372036854775809", i64::MIN),
        ] {
            assert_eq!(number(text), Some(expected), "{text}");
        }
        for text in ["", "-", "+", "--1", "+-1", "1.0", "0x10", "A4", " 1", "١"] {
            assert_eq!(number(text), None, "{text}");
        }
    }
}
