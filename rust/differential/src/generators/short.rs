//! All short files of a kind, one after the other and without chance.

use super::mutate::repair_total_size;
use crate::model::{Card, Operation, Pool, Stream};

/// Visits every file of at most two bytes, then the headers: small files of each version, cut off at every length, with
/// each byte in turn set to each value. The total size fits the length, unless it is the byte that is set.
pub fn for_each(mut visit: impl FnMut(&[u8])) {
    visit(&[]);
    for first in 0..=u8::MAX {
        visit(&[first]);
        for second in 0..=u8::MAX {
            visit(&[first, second]);
        }
    }
    for base in bases() {
        for length in 0..=base.len() {
            let mut file = base[..length].to_vec();
            repair_total_size(&mut file);
            visit(&file);
            each_byte(&mut file, &mut visit);
        }
    }
}

fn each_byte(file: &mut [u8], visit: &mut impl FnMut(&[u8])) {
    for at in 0..file.len() {
        let kept = file[at];
        for value in 0..=u8::MAX {
            file[at] = value;
            visit(file);
        }
        file[at] = kept;
    }
}

/// The smallest file of each version, and one with each of its tables and operations.
fn bases() -> Vec<Vec<u8>> {
    let tables = |version| {
        let mut stream = Stream::empty_frame(version);
        stream.pools.push(Pool {
            kind: 2,
            payload: vec![0x55],
        });
        stream.opening.push(Operation::Fill {
            target: 2,
            address: 1,
            length: 2,
            value: 3,
        });
        stream.frames[0].push(Operation::Copy {
            target: 2,
            address: 0,
            pool: 0,
            source: 0,
            length: 1,
        });
        stream
    };
    let mut version_1 = Stream::empty_frame(1);
    let record = Operation::write(1, 0x8ff, 7);
    version_1.opening.push(record);
    version_1.frames[0].push(record);
    let mut version_4 = tables(4);
    version_4.period = 48_000;
    version_4.cards.push(Card {
        slot: 7,
        name_length: 1,
        name: [1, 0, 0, 0, 0, 0, 0, 0, 0, 0, 0, 0, 0, 0, 0, 0],
        name_offset: 0x1ff_ffff,
        bulk_start: 0,
        bulk_length: 0x200_0000,
    });
    let mut streams = vec![version_1, tables(2), tables(3), version_4];
    streams.extend((0..=5).map(Stream::empty_frame));
    streams.iter().map(Stream::to_bytes).collect()
}
