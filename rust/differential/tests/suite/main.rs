//! The oracle is the original, the generators make what they say, and the library agrees with both original and sheet.

mod comparisons;
mod examples;
mod generators;
mod indexes;
mod joins;
mod jumps;
mod oracle;
mod pitches;
mod plays;
mod repacks;
mod sheet;
mod verdicts;

use differential::oracle::messages;

/// Bytes written as in the sheet, in hexadecimal with spaces.
fn hex(text: &str) -> Vec<u8> {
    let digits: Vec<u32> = text
        .chars()
        .filter_map(|digit| digit.to_digit(16))
        .collect();
    digits
        .chunks(2)
        .map(|pair| (pair[0] << 4 | pair[1]) as u8)
        .collect()
}

/// The sheet's numbers that the original's verdict can stand for; none for an accepted file.
fn numbers(file: &[u8]) -> &'static [u8] {
    let verdict = differential::oracle::verdict(file);
    verdict.map_or_else(|message| messages::numbers(&message), |_| &[])
}
