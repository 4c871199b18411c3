//! Why a file is refused: the rule in words, what stands at the place, and the bytes around it.

use super::{dump, fields, rules};
use sgub::Refusal;

/// Bytes that show a header.
const LONGEST_HEADER: usize = 48;

/// The rule, and the bytes that it is about.
pub fn explain(file: &[u8], refusal: Refusal) -> String {
    let mut text = rule(refusal.number);
    text.push('\n');
    text += &match refusal.number {
        7 | 10 | 11 | 13..=20 => at_place(file, refusal),
        _ => at_header(file),
    };
    text
}

fn rule(number: u32) -> String {
    match rules::rule(number) {
        Some(rule) => rule.text(number),
        None => format!("Refusal {number} is not known to this command.\n"),
    }
}

fn at_place(file: &[u8], Refusal { number, place }: Refusal) -> String {
    let version = byte(file, 4);
    let item = match number {
        7 => Some(("The card", fields::CARD.to_vec())),
        10 | 11 => Some(("The pool entry", fields::POOL_ENTRY.to_vec())),
        15..=19 if version == 1 => Some(("The record", fields::operation(1, 0))),
        15..=19 => {
            let fields = fields::operation(version, byte(file, place));
            Some(("The operation", fields))
        }
        _ => None,
    };
    let mut text = String::new();
    if let Some((name, fields)) = item {
        text += &format!("{name} at {place}:\n\n");
        text += &fields::table(file, place, &fields);
        text.push('\n');
    }
    let length = file.len();
    text += &format!("Place {place} (0x{place:X}) of {length} bytes, in brackets:\n\n");
    text + &dump::around(file, place)
}

/// The refusals without a place are about the header and the file's length.
fn at_header(file: &[u8]) -> String {
    if file.is_empty() {
        return String::from("The file is empty.\n");
    }
    let fields = fields::header(byte(file, 4));
    let length = file.len();
    let mut text = format!("The file has {length} bytes. Its header:\n\n");
    text += &fields::table(file, 0, &fields);
    text += "\nIts first bytes:\n\n";
    text + &dump::start(file, LONGEST_HEADER)
}

fn byte(file: &[u8], at: usize) -> u8 {
    file.get(at).copied().unwrap_or(0)
}
