//! Copies of a file with something wrong: one field, a shorter length, damage.

use super::limits;
use crate::model::fields::{Field, Role};
use crate::rng::Rng;

/// Makes `out` the file with one field changed: to 0, its greatest value, one more or less, any value, or one at a limit
/// of the sheet.
pub fn break_field(rng: &mut Rng, file: &[u8], fields: &[Field], out: &mut Vec<u8>) {
    out.clear();
    out.extend_from_slice(file);
    let index = if rng.one_in(3) {
        rng.index(fields.len().min(HEADER_FIELDS))
    } else {
        rng.index(fields.len())
    };
    let field = fields[index];
    let value = other_value(rng, out, field);
    field.write(out, value);
    // A pool's size stands twice: alone, a change of one of the two only shows that they are compared.
    if field.role == Role::RawSize && rng.one_in(2) {
        fields[index + 1].write(out, value);
    }
}

/// The fields of the header come first; version 4's are the most.
const HEADER_FIELDS: usize = 17;

fn other_value(rng: &mut Rng, file: &[u8], field: Field) -> u32 {
    let old = field.read(file);
    match rng.below(8) {
        0 => 0,
        1 => u32::MAX,
        2 => old.wrapping_add(1),
        3 => old.wrapping_sub(1),
        4 => rng.next_u64() as u32,
        _ => rng.pick(limits::of(field.role)),
    }
}

/// Makes `out` the first `length` bytes of the file; with `repair` the total size says so, and later checks are reached.
pub fn truncate(file: &[u8], length: usize, repair: bool, out: &mut Vec<u8>) {
    out.clear();
    out.extend_from_slice(&file[..length]);
    if repair {
        repair_total_size(out);
    }
}

/// Sets the total size to the file's length, where the file has that field.
pub fn repair_total_size(file: &mut [u8]) {
    let length = file.len() as u32;
    let at = if file.get(4) == Some(&1) { 16 } else { 32 };
    if let Some(field) = file.get_mut(at..at + 4) {
        field.copy_from_slice(&length.to_be_bytes());
    }
}

/// Makes `out` a damaged copy: bits or bytes changed, a part of this or the other file put over another, bytes put in or
/// taken out, the rest taken from the other file. In half of the cases damage is kept behind the header, and the total
/// size mostly fits the new length.
pub fn damage(rng: &mut Rng, file: &[u8], other: &[u8], out: &mut Vec<u8>) {
    out.clear();
    out.extend_from_slice(file);
    let spared = if rng.one_in(2) { 40 } else { 0 };
    for _ in 0..rng.between(1, 3) {
        damage_once(rng, spared, other, out);
    }
    if !rng.one_in(4) {
        repair_total_size(out);
    }
}

/// The longest part that is copied, put in or taken out.
const PART: u32 = 16;

fn damage_once(rng: &mut Rng, spared: usize, other: &[u8], out: &mut Vec<u8>) {
    if out.len() <= spared {
        return;
    }
    let at = spared + rng.index(out.len() - spared);
    let part = (rng.between(1, PART) as usize).min(out.len() - at);
    match rng.below(8) {
        0 => out[at] ^= 1 << rng.below(8),
        1 => out[at] = rng.byte(),
        2 => rng.fill(&mut out[at..at + part]),
        3 => {
            let from = rng.index(out.len() - part + 1);
            out.copy_within(from..from + part, at);
        }
        4 if other.len() >= part => {
            let from = rng.index(other.len() - part + 1);
            out[at..at + part].copy_from_slice(&other[from..from + part]);
        }
        5 if other.len() >= at => {
            out.truncate(at);
            out.extend_from_slice(&other[at..]);
        }
        6 => {
            let mut bytes = [0; PART as usize];
            rng.fill(&mut bytes);
            out.splice(at..at, bytes[..part].iter().copied());
        }
        _ => {
            out.drain(at..at + part);
        }
    }
}
