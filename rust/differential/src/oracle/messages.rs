//! The messages of the original and the refusals of the sheet that each can stand for.
//!
//! The original has no numbers, and one message often covers several of the sheet's rules. A verdict of the port agrees
//! with the original's where its number is among those of the message.

/// A message that `from_bytes` can give, as its text stands in the original.
#[derive(Clone, Copy, Debug, PartialEq, Eq)]
pub struct Message {
    /// The text; `{..}` stands for what is formatted in.
    pub text: &'static str,
    /// The sheet's numbers, rising.
    pub numbers: &'static [u8],
    /// Why no file reaches it; `None` for a message that some file gets.
    pub unreachable: Option<&'static str>,
}

impl Message {
    /// Whether a message that the original gave is this one.
    pub fn matches(&self, message: &str) -> bool {
        let Some((head, rest)) = self.text.split_once('{') else {
            return self.text == message;
        };
        let tail = rest.rsplit_once('}').map_or("", |(_, tail)| tail);
        message
            .strip_prefix(head)
            .is_some_and(|rest| rest.ends_with(tail))
    }
}

/// The place of a message of the original in [`MESSAGES`].
pub fn position(message: &str) -> Option<usize> {
    MESSAGES.iter().position(|entry| entry.matches(message))
}

/// The sheet's numbers that a message of the original can stand for; none for an unknown message.
pub fn numbers(message: &str) -> &'static [u8] {
    position(message).map_or(&[], |index| MESSAGES[index].numbers)
}

const fn reached(text: &'static str, numbers: &'static [u8]) -> Message {
    Message {
        text,
        numbers,
        unreachable: None,
    }
}

const fn unreached(text: &'static str, numbers: &'static [u8], why: &'static str) -> Message {
    Message {
        text,
        numbers,
        unreachable: Some(why),
    }
}

const IN_HEADER: &str = "the header's length is tested first";
const IN_OPERATION: &str = "the operation's length is tested first";
const NO_OVERFLOW: &str = "a 64-bit usize holds the sum";

/// Every message of `from_bytes` and what it calls, in the original's order.
pub const MESSAGES: &[Message] = &[
    // validate_v4_operation
    reached("truncated SGUB v4 operation", &[14]),
    reached("unknown SGUB v4 operation", &[13]),
    reached("SGUB v4 slot {slot} has no card requirement", &[15]),
    reached("SGUB v4 operation has invalid target", &[15]),
    reached("SGUB v4 WRITE address is out of range", &[16]),
    reached("SGUB v4 target does not accept FILL or COPY_POOL", &[17]),
    reached("SGUB v4 bulk destination is out of range", &[17]),
    reached("SGUB v4 COPY_POOL references an invalid pool ID", &[18]),
    reached("SGUB v4 COPY_POOL range or type is invalid", &[19]),
    // parse_v4_cards
    reached("SGUB v4 card table is truncated", &[7]),
    reached("SGUB v4 card requirement is invalid", &[7]),
    // validate_v2_operation
    reached("truncated SGUB v2 operation", &[14]),
    reached("unknown SGUB v2 operation", &[13]),
    unreached("truncated SGUB v3 address", &[14], IN_OPERATION),
    reached("SGUB operation has invalid target", &[15]),
    reached("SGUB WRITE address is out of range", &[16]),
    unreached("truncated SGUB FILL", &[14], IN_OPERATION),
    reached("SGUB v2 FILL range is invalid", &[17]),
    unreached("truncated SGUB v2 COPY_POOL", &[14], IN_OPERATION),
    reached("SGUB v2 COPY_POOL references an invalid pool ID", &[18]),
    unreached("SGUB v2 pool source range overflow", &[19], NO_OVERFLOW),
    unreached(
        "SGUB v2 copy length overflow",
        &[19],
        "the length is read as a u32",
    ),
    reached("SGUB v2 destination range overflow", &[19]),
    reached("SGUB v2 COPY_POOL range or type is invalid", &[19]),
    // validate_record
    unreached("record offset overflow", &[14], NO_OVERFLOW),
    reached("truncated SGUB record", &[14]),
    reached("SGUB SGU address 0x{address:06X} is out of range", &[16]),
    reached("SGUB PCMRAM address 0x{address:06X} is out of range", &[16]),
    reached("SGUB record has invalid target {target}", &[15]),
    // from_bytes
    reached("SGUB header is truncated", &[1]),
    reached("invalid SGUB magic", &[2]),
    reached("unsupported SGUB version {}", &[3]),
    reached("SGUB voice_count must be {VOICE_COUNT}", &[4]),
    reached("SGUB header contains reserved bits", &[5]),
    unreached("SGUB frame_count is truncated", &[1], IN_HEADER),
    unreached("SGUB initial_record_count is truncated", &[1], IN_HEADER),
    unreached("SGUB total_size is truncated", &[1], IN_HEADER),
    reached("SGUB stream has no frames", &[8]),
    reached("SGUB stream exceeds the 0x00E00000-byte limit", &[8]),
    reached(
        "SGUB total_size is {total_size}, but file contains {} bytes",
        &[8],
    ),
    unreached("SGUB initial record count overflow", &[12], NO_OVERFLOW),
    reached("SGUB initial records are truncated", &[12]),
    reached("SGUB frame record count is truncated", &[14]),
    unreached("SGUB frame offset overflow", &[14], NO_OVERFLOW),
    unreached(
        "SGUB frame records are truncated",
        &[14],
        "each record's end is tested before the cursor passes it",
    ),
    reached("SGUB stream has extra bytes after the final frame", &[20]),
    // from_v2_bytes
    reached("invalid SGUB v2 stream", &[8, 9, 12, 14]),
    reached("SGUB pooled header is truncated", &[1, 2]),
    // Its text also names the version, but `from_bytes` comes here only with 2 to 4.
    reached("invalid SGUB pooled version or voice count", &[4]),
    reached(
        "SGUB pooled header contains invalid flags or reserved values",
        &[5],
    ),
    reached("SGUB v4 frame period is out of range", &[6]),
    reached("SGUB v2 pool directory is not canonical", &[10]),
    reached("SGUB v2 wave pool entries must be 256 bytes", &[10]),
    reached("unsupported SGUB pooled stream pool type", &[10]),
    reached("SGUB v2 PCM pool entry exceeds 1 MiB", &[10]),
    reached("SGUB v2 pool payload is truncated", &[11]),
    reached(
        "SGUB v2 initial operation count or offset is inconsistent",
        &[20],
    ),
    reached("SGUB v2 has trailing data or truncated frames", &[20]),
];

#[cfg(test)]
mod tests {
    use super::*;

    /// The part of the original that judges a file.
    fn judging_text() -> &'static str {
        let text = include_str!("../../original/stream.rs");
        let start = text.find("fn validate_v4_operation(").unwrap();
        let end = text.find("    fn apply_records(").unwrap();
        &text[start..end]
    }

    /// The string literals of a text: the original has no quote inside one, and no comment with a quote.
    fn literals(text: &str) -> Vec<&str> {
        text.split('"').skip(1).step_by(2).collect()
    }

    #[test]
    fn the_table_holds_every_message_and_no_other() {
        let mut found = literals(judging_text());
        found.retain(|text| *text != "SGUB");
        let mut texts: Vec<&str> = MESSAGES.iter().map(|entry| entry.text).collect();
        found.sort_unstable();
        found.dedup();
        texts.sort_unstable();
        assert_eq!(found, texts);
    }

    #[test]
    fn messages_are_told_apart() {
        for entry in MESSAGES {
            let filled: String = entry
                .text
                .split(['{', '}'])
                .enumerate()
                .map(|(index, part)| if index % 2 == 0 { part } else { "12" })
                .collect();
            let matching: Vec<_> = MESSAGES.iter().filter(|e| e.matches(&filled)).collect();
            assert_eq!(matching, [entry], "{filled}");
        }
        assert!(numbers("no such message").is_empty());
    }

    #[test]
    fn every_number_of_the_check_list_has_a_message() {
        for number in 1..=20 {
            let stands =
                |entry: &Message| entry.unreachable.is_none() && entry.numbers.contains(&number);
            assert!(MESSAGES.iter().any(stands), "{number}");
        }
    }
}
