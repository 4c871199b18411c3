//! What an accepted file holds: its header, its cards and its pools as tables.

use super::text::{number, quoted};
use sgub::{Card, Header, PoolEntry};
use std::ops::Range;

/// Pools shown at each end of a list that is shortened.
const ENDS: usize = 8;

/// The tables; with `all` every pool, however many there are.
pub fn explain(file: &[u8], header: &Header, all: bool) -> String {
    let mut text = header_table(header);
    if header.card_count > 0 {
        let cards = (0..usize::from(header.card_count)).map(|index| sgub::card(file, index));
        // The file is accepted, and has a card at each of these indices.
        text += &card_table(cards.filter_map(|card| card.ok().flatten()));
    }
    // The file is accepted.
    let pools = sgub::pools(file).unwrap_or_default();
    if !pools.is_empty() {
        text += &pool_table(&pools, all);
    }
    text
}

fn header_table(header: &Header) -> String {
    let mut rows = vec![
        ("version", header.version.to_string()),
        ("repeat", yes_or_no(header.repeats)),
        ("frames", header.frame_count.to_string()),
    ];
    if header.version == 4 {
        rows.push(("frame period", period(header.frame_period)));
    }
    let opening = if header.version == 1 {
        "opening records"
    } else {
        "opening operations"
    };
    rows.push((opening, header.initial_count.to_string()));
    if header.version == 4 {
        rows.push(("uses target 11", yes_or_no(header.uses_si22)));
        rows.push(("cards", header.card_count.to_string()));
    }
    if header.version > 1 {
        rows.push(("pools", header.pool_count.to_string()));
        rows.push(("directory offset", number(header.directory_offset)));
    }
    rows.push(("opening start", number(header.initial_start)));
    rows.push(("frames start", number(header.frame_start)));
    rows.push(("total size", number(header.total_size)));
    let mut text = String::from("Header\n");
    for (name, value) in rows {
        text += &format!("  {name:<20}{value}\n");
    }
    text
}

fn yes_or_no(value: bool) -> String {
    String::from(if value { "yes" } else { "no" })
}

/// The original counts periods in cycles of its 48 MHz clock.
fn period(cycles: u32) -> String {
    if cycles == 0 {
        return String::from("0, one frame each vsync");
    }
    let hertz = 48e6 / f64::from(cycles);
    format!("{cycles} cycles of 48 MHz, {hertz:.2} frames a second")
}

fn card_table(cards: impl Iterator<Item = Card>) -> String {
    let rows: Vec<[String; 4]> = cards
        .map(|card| {
            [
                card.slot.to_string(),
                quoted(card.name()),
                format!("0x{:07X}", card.id_offset),
                bulk_range(&card),
            ]
        })
        .collect();
    let names = rows.iter().map(|row| row[1].len());
    let width = names.max().unwrap_or(0).max("name".len());
    let mut text = format!(
        "\nCards\n  slot  {:<width$}  name offset  bulk range\n",
        "name"
    );
    for [slot, name, offset, range] in rows {
        text += &format!("  {slot:>4}  {name:<width$}  {offset:>11}  {range}\n");
    }
    text
}

fn bulk_range(card: &Card) -> String {
    if card.bulk_length == 0 {
        return String::from("none");
    }
    // A sum above 0x2000000 is refused.
    let last = card.bulk_start + (card.bulk_length - 1);
    format!("0x{:07X} to 0x{last:07X}", card.bulk_start)
}

fn pool_table(pools: &[PoolEntry], all: bool) -> String {
    let count = pools.len();
    let rows = |ids: Range<usize>| ids.map(|id| pool_row(id, pools[id])).collect::<String>();
    let mut text = String::from("\nPools\n     id  kind      size    offset\n");
    // A list that would lose one row only is not shortened.
    if all || count <= 2 * ENDS + 1 {
        return text + &rows(0..count);
    }
    text += &rows(0..ENDS);
    text += &format!(
        "    ...  {} more; --all lists every pool\n",
        count - 2 * ENDS
    );
    text + &rows(count - ENDS..count)
}

fn pool_row(id: usize, PoolEntry { kind, size, offset }: PoolEntry) -> String {
    let kind = kind_in_words(kind);
    format!("  {id:>5}  {kind:<4}  {size:>8}  {offset:>8}\n")
}

fn kind_in_words(kind: u8) -> &'static str {
    match kind {
        1 => "wave",
        2 => "PCM",
        3 => "card",
        _ => "?",
    }
}
