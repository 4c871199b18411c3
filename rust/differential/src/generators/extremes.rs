//! Files at the limits that only a long file reaches, and one beyond: sizes and counts. Without chance, as the short files.

use super::mutate::repair_total_size;
use crate::model::{Card, MAX_POOLS, MAX_SIZE, Operation, PCM_MEMORY, Pool, Stream, V3_BULK};

/// Visits every such file.
pub fn for_each(mut visit: impl FnMut(&[u8])) {
    for version in 1..=4 {
        for size in MAX_SIZE - 2..=MAX_SIZE + 2 {
            visit(&of_size(version, size));
        }
        visit(&long_frame(version));
    }
    for version in 2..=4 {
        for count in [MAX_POOLS - 1, MAX_POOLS] {
            visit(&with_pools(version, vec![pcm(1); count]));
        }
        visit(&too_many_pools(version));
        for size in [PCM_MEMORY, PCM_MEMORY + 1] {
            visit(&with_pools(version, vec![pcm(size)]));
        }
        for size in [V3_BULK, V3_BULK + 1] {
            visit(&with_pools(version, vec![pool(3, size)]));
        }
    }
}

/// Empty frames up to a size; if that is odd, with a byte behind them.
fn of_size(version: u8, size: usize) -> Vec<u8> {
    let mut file = Stream::empty_frame(version).to_bytes();
    let frames = 1 + (size - file.len()) / 2;
    file.resize(size, 0);
    file[8..12].copy_from_slice(&(frames as u32).to_be_bytes());
    repair_total_size(&mut file);
    file
}

/// A frame with as many operations as its count can say.
fn long_frame(version: u8) -> Vec<u8> {
    let mut stream = Stream::empty_frame(version);
    stream.frames[0] = vec![Operation::write(0, 0, 0); usize::from(u16::MAX)];
    stream.to_bytes()
}

fn pool(kind: u8, size: u32) -> Pool {
    Pool {
        kind,
        payload: vec![0x55; size as usize],
    }
}

fn pcm(size: u32) -> Pool {
    pool(2, size)
}

/// Pools, and a COPY from the last one to PCM memory or to slot 0, for which version 4 has a card.
fn with_pools(version: u8, pools: Vec<Pool>) -> Vec<u8> {
    let last = (pools.len() - 1) as u16;
    let target = pools[0].kind;
    let mut stream = Stream::empty_frame(version);
    stream.cards.push(Card {
        name_length: 1,
        bulk_length: 1,
        ..Card::default()
    });
    stream.pools = pools;
    stream.frames[0].push(Operation::copy(target, 0, last, 0, 1));
    stream.to_bytes()
}

/// A pool count of one more than there may be. No id is left for the last one.
fn too_many_pools(version: u8) -> Vec<u8> {
    let mut file = with_pools(version, vec![pcm(1); MAX_POOLS]);
    file[12..16].copy_from_slice(&(MAX_POOLS as u32 + 1).to_be_bytes());
    file
}
