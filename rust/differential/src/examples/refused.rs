//! The files of `examples/` that are refused: a small one for each of the numbers 1 to 20, and a master that repacking refuses.

use super::{Example, card, triangle};
use crate::generators::mutate;
use crate::model::{Operation, PCM, Pool, Stream, WAVE};

/// All of them, with the number in each name. The file of 14 is a tune that is cut off.
pub fn all(tune: &[u8]) -> Vec<Example> {
    let example = |name, file| Example { name, file };
    let empty = |version| Stream::empty_frame(version).to_bytes();
    let with = |file: Vec<u8>, at: usize, value| {
        let mut file = file;
        file[at] = value;
        file
    };
    vec![
        example("refused-1", b"SGUB".to_vec()),
        example("refused-2", with(empty(1), 3, b'C')),
        example("refused-3", with(empty(1), 4, 5)),
        example("refused-4", with(empty(1), 5, 15)),
        example("refused-5", with(empty(2), 6, 2)),
        example("refused-6", period_too_short().to_bytes()),
        example("refused-7", equal_slots().to_bytes()),
        example("refused-8", with(empty(1), 11, 0)),
        example("refused-9", with(empty(2), 15, 1)),
        example("refused-10", wave_pool(255, &[]).to_bytes()),
        example("refused-11", cut_off(&wave_pool(256, &[]).to_bytes(), 214)),
        example("refused-12", with(empty(1), 15, 1)),
        example("refused-13", with(opening(2, WRITE).to_bytes(), 40, 3)),
        example("refused-14", cut_off(tune, 3)),
        example(
            "refused-15",
            opening(1, Operation::write(3, 0, 0)).to_bytes(),
        ),
        example(
            "refused-16",
            opening(1, Operation::write(0, 0x900, 0)).to_bytes(),
        ),
        example(
            "refused-17",
            opening(2, Operation::fill(0, 0x7ff, 2, 0)).to_bytes(),
        ),
        example("refused-18", wave_pool(256, &[(1, 0)]).to_bytes()),
        example(
            "refused-19",
            wave_pool(256, &[(0, 0x100), (0, 0x180)]).to_bytes(),
        ),
        example("refused-20", longer(&empty(1))),
        example(
            "repack-22",
            opening(1, Operation::write(PCM, 1, 0x55)).to_bytes(),
        ),
    ]
}

/// A WRITE that is allowed in every version.
const WRITE: Operation = Operation::write(0, 0x803, 0xc0);

/// Version 4 with a period one below the least.
fn period_too_short() -> Stream {
    Stream {
        period: 47_999,
        ..Stream::empty_frame(4)
    }
}

/// Version 4 with two cards for one slot.
fn equal_slots() -> Stream {
    Stream {
        cards: vec![card(2, b"A", 0, 0), card(2, b"B", 0, 0)],
        ..Stream::empty_frame(4)
    }
}

/// One operation in the opening, and an empty frame.
fn opening(version: u8, operation: Operation) -> Stream {
    Stream {
        opening: vec![operation],
        ..Stream::empty_frame(version)
    }
}

/// Version 2 with a wave of so many bytes as pool 0, and COPYs of whole waves in the opening, each from a pool to an address.
fn wave_pool(bytes: usize, copies: &[(u16, u32)]) -> Stream {
    let copy = |&(pool, address): &(u16, u32)| Operation::copy(0, address, pool, 0, WAVE);
    Stream {
        pools: vec![Pool {
            kind: 1,
            payload: triangle()[..bytes].to_vec(),
        }],
        opening: copies.iter().map(copy).collect(),
        ..Stream::empty_frame(2)
    }
}

/// The file without so many bytes at its end, and with a total size that says so.
fn cut_off(file: &[u8], bytes: usize) -> Vec<u8> {
    let mut shorter = Vec::new();
    mutate::truncate(file, file.len() - bytes, true, &mut shorter);
    shorter
}

/// The file with a byte behind its last frame, and a total size that says so.
fn longer(file: &[u8]) -> Vec<u8> {
    let mut longer = [file, &[0]].concat();
    mutate::repair_total_size(&mut longer);
    longer
}
