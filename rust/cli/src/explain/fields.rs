//! The fields of a header, a card, a pool entry or an operation as they stand in a file, whether they are right or not.

use super::text::{number, quoted};

/// What a field is called, and its bytes.
pub type Field = (&'static str, usize);

const START: &[Field] = &[
    ("letters", 4),
    ("version", 1),
    ("voice count", 1),
    ("repeat", 1),
    ("reserved", 1),
];
const PLAIN: &[Field] = &[("frames", 4), ("opening records", 4), ("total size", 4)];
const POOLED: &[Field] = &[
    ("frames", 4),
    ("pools", 4),
    ("opening operations", 4),
    ("directory offset", 4),
    ("opening start", 4),
    ("frames start", 4),
    ("total size", 4),
    ("header size", 2),
];
const POOLED_END: &[Field] = &[("reserved", 2)];
const VERSION_4_END: &[Field] = &[
    ("card count", 1),
    ("reserved", 1),
    ("frame period", 4),
    ("reserved", 4),
];

/// A card.
pub const CARD: &[Field] = &[
    ("slot", 1),
    ("name length", 1),
    ("reserved", 2),
    ("name offset", 4),
    ("bulk start", 4),
    ("bulk length", 4),
    ("name", 16),
];

/// A pool entry.
pub const POOL_ENTRY: &[Field] = &[
    ("id", 2),
    ("kind", 1),
    ("codec", 1),
    ("size", 4),
    ("size again", 4),
    ("offset", 4),
];

const WRITE: &[Field] = &[("value", 1)];
const FILL: &[Field] = &[("length", 4), ("value", 1)];
const COPY: &[Field] = &[("pool", 2), ("source", 4), ("length", 4)];

/// The header that a file has by its byte 4.
pub fn header(version: u8) -> Vec<Field> {
    match version {
        2 | 3 => [START, POOLED, POOLED_END].concat(),
        4 => [START, POOLED, VERSION_4_END].concat(),
        _ => [START, PLAIN].concat(),
    }
}

/// The record of version 1, or the operation with an opcode of another version.
pub fn operation(version: u8, opcode: u8) -> Vec<Field> {
    let place: &[Field] = match version {
        1 => &[("target", 1), ("address", 3)],
        2 => &[("opcode", 1), ("target", 1), ("address", 3)],
        _ => &[("opcode", 1), ("target", 1), ("address", 4)],
    };
    let rest = match opcode {
        _ if version == 1 => WRITE,
        0 => WRITE,
        1 => FILL,
        _ => COPY,
    };
    [place, rest].concat()
}

/// The fields from a place on, a row for each, as far as the file has them.
pub fn table(file: &[u8], mut at: usize, fields: &[Field]) -> String {
    let mut text = String::from("     place  field               value\n");
    for (name, width) in fields {
        let bytes = file.get(at..at + width);
        let value = bytes.map_or(String::from("cut off"), |bytes| value(name, bytes));
        text += &format!("  {at:>8}  {name:<20}{value}\n");
        if bytes.is_none() {
            break;
        }
        at += width;
    }
    text
}

fn value(name: &str, bytes: &[u8]) -> String {
    match name {
        "letters" => return quoted(bytes),
        "name" => return quoted(without_padding(bytes)),
        _ => {}
    }
    let sum = bytes
        .iter()
        .fold(0, |sum, byte| sum << 8 | u32::from(*byte));
    match (name, sum) {
        ("opcode", 0) => "0, WRITE".into(),
        ("opcode", 1) => "1, FILL".into(),
        ("opcode", 2) => "2, COPY".into(),
        _ => number(sum),
    }
}

/// The bytes up to the last that is not 0.
fn without_padding(bytes: &[u8]) -> &[u8] {
    let last = bytes.iter().rposition(|byte| *byte != 0);
    &bytes[..last.map_or(0, |last| last + 1)]
}

#[cfg(test)]
mod tests {
    use super::*;

    fn size(fields: &[Field]) -> usize {
        fields.iter().map(|(_, width)| width).sum()
    }

    #[test]
    fn sizes_are_those_of_the_sheet() {
        assert_eq!([1, 2, 3, 4].map(|v| size(&header(v))), [20, 40, 40, 48]);
        assert_eq!((size(CARD), size(POOL_ENTRY)), (32, 16));
        let operations = |version| [0, 1, 2].map(|opcode| size(&operation(version, opcode)));
        assert_eq!(operations(1), [5, 5, 5]);
        assert_eq!(operations(2), [6, 10, 15]);
        assert_eq!(operations(3), [7, 11, 16]);
        assert_eq!(operations(4), [7, 11, 16]);
    }

    #[test]
    fn a_table_ends_where_the_file_does() {
        let rows = [
            "     place  field               value\n",
            "         0  opcode              1, FILL\n",
            "         1  target              2\n",
            "         2  address             2559 (0x9FF)\n",
            "         5  length              cut off\n",
        ];
        let table = table(&[1, 2, 0, 9, 0xFF, 0], 0, &operation(2, 1));
        assert_eq!(table, rows.concat());
    }
}
