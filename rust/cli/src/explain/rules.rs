//! The refusals 1 to 30 in words for whoever has to mend a file. The format sheet decides; docs/RULES.md has the same words.

use super::details;
use super::text::wrapped;

/// A rule whose breach is refused under its number.
pub struct Rule {
    /// What is refused.
    words: &'static str,
    /// What the place of the refusal is.
    place: &'static str,
    /// Which commands can print the number.
    printed_by: &'static str,
    /// Limits and layouts that the words only name.
    details: &'static [&'static str],
}

/// The greatest number.
pub const LAST: usize = RULES.len();

/// The rule of a number; `None` for a number that the library does not give.
pub fn rule(number: u32) -> Option<&'static Rule> {
    let index = number.checked_sub(1)?;
    RULES.get(usize::try_from(index).ok()?)
}

impl Rule {
    /// The rule under its number, as text for a refused file.
    pub fn text(&self, number: u32) -> String {
        let head = format!("Refusal {number}: ");
        let mut text = wrapped(&format!("{head}{}", self.words), head.len());
        for detail in self.details {
            text.push('\n');
            text += detail;
        }
        text
    }

    /// The same with all that can be said without a file.
    pub fn whole_text(&self, number: u32) -> String {
        let mut text = self.text(number);
        text.push('\n');
        for (head, words) in [("Place: ", self.place), ("Printed by: ", self.printed_by)] {
            text += &wrapped(&format!("{head}{words}."), head.len());
        }
        text
    }
}

/// The place of the refusals that have none.
const NONE: &str = "0";
const ITEM: &str = "the first byte of the record or operation";
const OPERATION: &str = "the first byte of the operation";

/// A rule of the check, which every command makes.
const fn check(words: &'static str, place: &'static str, details: &'static [&'static str]) -> Rule {
    Rule {
        words,
        place,
        printed_by: "check, explain, play, index, repack, compare, join",
        details,
    }
}

/// A rule beside the check; none of them has a place.
const fn beside(
    words: &'static str,
    printed_by: &'static str,
    details: &'static [&'static str],
) -> Rule {
    Rule {
        words,
        place: NONE,
        printed_by,
        details,
    }
}

const RULES: [Rule; 30] = [
    // 1
    check(
        "The file is too short for its header, which has 48 bytes if there is a byte 4 and it is 4, 40 bytes if it \
         is 2 or 3, and 20 bytes in every other case.",
        NONE,
        &[],
    ),
    // 2
    check(
        "The first four bytes, 0 to 3, do not spell SGUB.",
        NONE,
        &[],
    ),
    // 3
    check("The version in byte 4 is none of 1, 2, 3 and 4.", NONE, &[]),
    // 4
    check(
        "The voice count in byte 5 is another number than 16.",
        NONE,
        &[],
    ),
    // 5
    check(
        "Byte 6 is above 1 (1 means repeat), byte 7 is not 0, or in versions 2 to 4 the header size, a reserved byte \
         or the card count (8 at most) is wrong.",
        NONE,
        &[details::RESERVED],
    ),
    // 6
    check(
        "The frame period of version 4, bytes 40 to 43, is not 0 and lies outside of 48,000 to 48,000,000.",
        NONE,
        &[],
    ),
    // 7
    check(
        "A card is cut off by the file's end, or breaks a rule for cards.",
        "the first byte of the card",
        &[details::CARD],
    ),
    // 8
    check(
        "The frame count is 0, the total size is above 0xE00000 or differs from the file's length, or in versions 2 \
         to 4 the pool count is above 65,536 or the directory does not start right behind header and cards.",
        NONE,
        &[details::COUNTS],
    ),
    // 9
    check(
        "The pool directory, 16 bytes for each pool, goes beyond the file's end.",
        NONE,
        &[],
    ),
    // 10
    check(
        "A pool entry breaks a rule for pools.",
        "the first byte of the pool entry",
        &[details::POOL],
    ),
    // 11
    check(
        "The payload of a pool goes beyond the file's end.",
        "the first byte of the pool entry",
        &[details::PAYLOAD],
    ),
    // 12
    check(
        "In version 1 the opening records go beyond the file's end. In versions 2 to 4 the opening does not start \
         where the payloads end, or the frames start before the opening does or beyond the file's end.",
        NONE,
        &[details::SECTIONS],
    ),
    // 13
    check(
        "The first byte of an operation is above 2, and lies before the limit that 14 names (if not, 14 is given).",
        OPERATION,
        &[details::OPERATION, details::ITEMS],
    ),
    // 14
    check(
        "A record, an operation or a frame count has too few bytes before its limit. In the opening of versions 2 to \
         4 the limit is where the frames start, everywhere else it is the file's end.",
        "the first byte of the record, operation or frame count",
        &[details::RECORD, details::OPERATION, details::ITEMS],
    ),
    // 15
    check(
        "The file's version has no such target, or the target's slot has no card.",
        ITEM,
        &[details::TARGETS, details::ITEMS],
    ),
    // 16
    check(
        "The address of a record or a WRITE is above the limit of its target.",
        ITEM,
        &[details::TARGETS, details::ITEMS],
    ),
    // 17
    check(
        "A FILL has length 0, or a destination that is not allowed; in version 4 this goes for a COPY too.",
        OPERATION,
        &[details::BULK, details::ITEMS],
    ),
    // 18
    check(
        "A COPY takes from a pool that the file does not have.",
        OPERATION,
        &[details::POOL_NUMBERS, details::ITEMS],
    ),
    // 19
    check(
        "A COPY breaks another rule: it reads beyond its pool, the pool's kind does not go to this target, the \
         address, source or length of a wave's COPY is not a multiple of 256, or in versions 2 and 3 the length is 0 or \
         the destination is not allowed.",
        OPERATION,
        &[details::COPY, details::BULK, details::ITEMS],
    ),
    // 20
    check(
        "In versions 2 to 4 the opening's operations, even if there are none, do not end where the frames start, \
         which is tested before any frame; or in any version the last frame does not end at the file's end.",
        "the byte where reading stopped",
        &[],
    ),
    // 21
    beside(
        "The file is accepted, but its version is not one that this command takes.",
        "repack, compare, join",
        &[details::VERSIONS],
    ),
    // 22
    beside(
        "Repacking only: the opening's writes to PCM memory do not go to the addresses 0, 1, 2 and so on, one after \
         the other.",
        "repack",
        &[],
    ),
    // 23
    beside(
        "The result would have more than 0xE00000 bytes (14,680,064).",
        "repack, join",
        &[details::RESULTS],
    ),
    // 24
    beside(
        "The memory that a caller lends for the result or for a memory image is too short.",
        "no command, since each lends enough; a program that calls the library can get it",
        &[details::LENT],
    ),
    // 25
    beside(
        "A player and the file that is lent to its vsync call or jump do not belong together.",
        "no command, since each plays a file by its own player; a program that calls the library can get it",
        &[details::BELONGING, details::READING],
    ),
    // 26
    beside(
        "Jumping only: the index is not this file's. It is damaged, or it was built for another file or before this \
         one was changed.",
        "play --from with --index",
        &[details::INDEX],
    ),
    // 27
    beside(
        "Jumping only: the file has no frame of this number, which is 0 or above the number of frames.",
        "play --from",
        &[details::FRAMES],
    ),
    // 28
    beside(
        "Asking for a pitch only: the note is above 127, or the shift is outside of -48 to 48 semitones.",
        "pitch",
        &[details::NOTES],
    ),
    // 29
    beside(
        "Joining only: the second file's opening and its first frame have more than 65,535 operations together, too \
         many for one frame.",
        "join",
        &[details::JOINED_FRAME, details::JOINED_ORDER],
    ),
    // 30
    beside(
        "Joining only: the two files have more than 65,536 pools together.",
        "join",
        &[details::JOINED_POOLS, details::JOINED_ORDER],
    ),
];

#[cfg(test)]
mod tests {
    use super::*;
    use crate::explain::text::WIDTH;
    use std::fs;
    use std::path::Path;

    #[test]
    fn there_are_30() {
        assert!(rule(0).is_none() && rule(31).is_none());
        assert!(rule(4).unwrap().words.contains("voice count"));
        assert_eq!(LAST, 30);
    }

    #[test]
    fn lines_stay_within_the_width() {
        for (rule, number) in RULES.iter().zip(1..) {
            for line in rule.whole_text(number).lines() {
                assert!(line.len() <= WIDTH && line.trim_end() == line, "{line}");
            }
        }
    }

    /// The numbers with a place are those of the format sheet.
    #[test]
    fn places_are_those_of_the_sheet() {
        for (rule, number) in RULES.iter().zip(1..) {
            let expected = match number {
                7 | 10 | 11 | 13..=19 => "the first byte of the ",
                20 => "the byte where reading stopped",
                _ => "0",
            };
            assert!(rule.place.starts_with(expected), "{number}");
        }
    }

    /// The table of docs/RULES.md has these words and places. More columns may follow.
    #[test]
    fn the_table_has_the_same_words() {
        let path = Path::new(env!("CARGO_MANIFEST_DIR")).join("../../docs/RULES.md");
        let table = fs::read_to_string(path).unwrap();
        for (rule, number) in RULES.iter().zip(1..) {
            assert!(!rule.words.contains('|') && !rule.place.contains('|'));
            let row = format!("| {number} | {} | {} |", rule.words, rule.place);
            let rows = table.lines().filter(|line| line.starts_with(&row));
            assert_eq!(rows.count(), 1, "{row}");
        }
    }
}
