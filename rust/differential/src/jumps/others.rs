//! Files beside a player's own: those that a jump must take for it, and those that it must not.

use super::pass::Pass;
use crate::indexes::SPACING;
use crate::model::SI22;
use crate::rng::Rng;

/// Tries to find a file of a kind.
const TRIES: usize = 24;

/// A file that is another than `own`: with the same header mostly, or what stands for any file.
pub fn other(own: &[u8], pass: &Pass, any: &[u8], rng: &mut Rng) -> Vec<u8> {
    let found = match rng.below(8) {
        0..=2 => swapped(own, pass, rng),
        3 => changed(own, pass.head.len(), rng),
        4 => retargeted(own, pass, rng),
        5 => Some(repeating(own)),
        6 => changed_head(own, pass, rng),
        _ => None,
    };
    found.unwrap_or_else(|| any.to_vec())
}

fn is_accepted(file: &[u8]) -> bool {
    sgub::check(file).is_ok()
}

/// Two frames of different lengths in each other's place; where the file is long enough mostly those at an entry of the index, so
/// that only the index is another.
fn swapped(own: &[u8], pass: &Pass, rng: &mut Rng) -> Option<Vec<u8>> {
    let places = &pass.places;
    let ends = || places[1..].iter().copied().chain([own.len()]);
    let frames: Vec<_> = places.iter().copied().zip(ends()).collect();
    let pairs = frames.len() - 1;
    for attempt in 0..TRIES {
        let first = match pairs {
            0 => return None,
            SPACING.. if attempt == 0 => SPACING - 1,
            _ => rng.index(pairs),
        };
        let [(start, middle), (_, end)] = [frames[first], frames[first + 1]];
        if middle - start != end - middle {
            let parts = [
                &own[..start],
                &own[middle..end],
                &own[start..middle],
                &own[end..],
            ];
            return Some(parts.concat());
        }
    }
    None
}

/// One byte behind so many is another, and the file is still accepted.
fn changed(own: &[u8], front: usize, rng: &mut Rng) -> Option<Vec<u8>> {
    (0..TRIES).find_map(|_| {
        let mut file = own.to_vec();
        let at = front + rng.index(own.len() - front);
        file[at] ^= 1 << rng.below(8);
        is_accepted(&file).then_some(file)
    })
}

/// One byte of header or cards is another, and the file is still accepted.
fn changed_head(own: &[u8], pass: &Pass, rng: &mut Rng) -> Option<Vec<u8>> {
    (0..4 * TRIES).find_map(|_| {
        let mut file = own.to_vec();
        file[5 + rng.index(pass.head.len() - 5)] = rng.byte();
        (file != own && is_accepted(&file)).then_some(file)
    })
}

/// The file that repeats where this one does not.
fn repeating(own: &[u8]) -> Vec<u8> {
    let mut file = own.to_vec();
    file[6] ^= 1;
    file
}

/// A WRITE of version 4 to target 11 goes to core 0, or the other way.
fn retargeted(own: &[u8], pass: &Pass, rng: &mut Rng) -> Option<Vec<u8>> {
    if own[4] != 4 {
        return None;
    }
    let (old, new) = if pass.uses_si22 { (SI22, 0) } else { (0, SI22) };
    let front = pass.head.len();
    let at: Vec<usize> = (front..own.len() - 1)
        .filter(|at| own[*at] == 0 && own[*at + 1] == old)
        .collect();
    (0..TRIES.min(at.len())).find_map(|_| {
        let mut file = own.to_vec();
        file[rng.pick(&at) + 1] = new;
        let is_other = is_accepted(&file) && Pass::read(&file).uses_si22 != pass.uses_si22;
        is_other.then_some(file)
    })
}
