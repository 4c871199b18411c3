//! The files of `examples/`, made from values.

mod refused;

use crate::model::{Card, FIRST_SLOT, Operation, PCM, Pool, SI22, Stream, WAVE};
use crate::{indexes, oracle};

/// A file of `examples/`.
pub struct Example {
    /// Its name, without the ending `.sgub`, or `.index` for an index.
    pub name: &'static str,
    /// Its bytes.
    pub file: Vec<u8>,
}

/// All stream files. What each is for stands in `examples/README.md`.
///
/// # Panics
/// If the original does not repack the master.
pub fn all() -> Vec<Example> {
    let example = |name, file| Example { name, file };
    let tune = tune().to_bytes();
    let repacked = oracle::repack(&tune).expect("the original repacks an accepted master");
    let mut examples = vec![
        example("empty-1", Stream::empty_frame(1).to_bytes()),
        example("empty-2", Stream::empty_frame(2).to_bytes()),
        example("empty-4", Stream::empty_frame(4).to_bytes()),
        example("tune-1", tune),
        example("tune-2", repacked.clone()),
        example("bank-3", bank().to_bytes()),
        example("cards-4", cards().to_bytes()),
        example("scale-2", scale().to_bytes()),
    ];
    examples.extend(refused::all(&repacked));
    examples
}

/// All indexes: the one of `scale-2.sgub`, beside it, and the same with a wrong place for frame 65.
///
/// # Panics
/// If the original does not play the scale.
pub fn all_indexes() -> Vec<Example> {
    let example = |name, file| Example { name, file };
    let own = indexes::by_original(&scale().to_bytes()).expect("the original plays the scale");
    let mut damaged = own.clone();
    damaged[7] ^= 1;
    vec![example("scale-2.sgub", own), example("refused-26", damaged)]
}

/// The stream file of a name.
///
/// # Panics
/// If there is none.
pub fn example(name: &str) -> Vec<u8> {
    let found = all().into_iter().find(|example| example.name == name);
    found.unwrap_or_else(|| panic!("no example {name}")).file
}

/// A master: eight bytes of PCM and the volumes of two channels in the opening; a wave and two notes in three frames.
fn tune() -> Stream {
    let mut stream = Stream::empty_frame(1);
    stream.opening = (0..8)
        .map(|n| Operation::write(PCM, n, 0x80 + 8 * n as u8))
        .chain([
            Operation::write(0, 0x803, 0xc0),
            Operation::write(1, 0x803, 0xc0),
        ])
        .collect();
    let note = |pitch| {
        [
            Operation::write(0, 0x800, pitch),
            Operation::write(0, 0x801, 0x19),
            Operation::write(0, 0x819, 1),
        ]
    };
    let wave = triangle().into_iter().zip(0..);
    stream.frames = vec![
        wave.map(|(value, address)| Operation::write(0, address, value))
            .chain(note(0x01))
            .collect(),
        Vec::new(),
        note(0x02).to_vec(),
    ];
    stream
}

/// A repeating file of version 3 with a bank: a COPY, a FILL and a WRITE to target 3.
fn bank() -> Stream {
    Stream {
        repeat: true,
        pools: vec![Pool {
            kind: 3,
            payload: (1..=32).collect(),
        }],
        opening: vec![
            Operation::fill(FIRST_SLOT, 0x20, 0x40, 0x80),
            Operation::copy(FIRST_SLOT, 0, 0, 0, 32),
        ],
        frames: vec![
            vec![Operation::write(FIRST_SLOT, 0x1ff_ffff, 1)],
            vec![Operation::write(0, 0x803, 0)],
        ],
        ..Stream::empty_frame(3)
    }
}

/// Version 4 with two cards, one of them without a bulk range, pools of every kind, target 11 and 60 frames a second.
fn cards() -> Stream {
    let pool = |kind, payload| Pool { kind, payload };
    Stream {
        period: 800_000,
        cards: vec![card(0, b"SRC32-PCM", 0x1000, 0x8000), card(5, b"OPL", 0, 0)],
        pools: vec![
            pool(1, triangle()),
            pool(2, vec![0x80, 0xc0, 0x80, 0x40]),
            pool(3, (0..16).collect()),
        ],
        opening: vec![
            Operation::copy(0, 0x100, 0, 0, WAVE),
            Operation::copy(PCM, 0, 1, 0, 4),
            Operation::fill(FIRST_SLOT, 0x1000, 0x8000, 0),
            Operation::copy(FIRST_SLOT, 0x1010, 2, 0, 16),
        ],
        frames: vec![
            vec![
                Operation::write(SI22, 0x0c, 1),
                Operation::write(FIRST_SLOT + 5, 0x20, 0x11),
            ],
            vec![
                Operation::write(SI22, 0x3f, 0),
                Operation::write(0, 0x819, 1),
            ],
        ],
        ..Stream::empty_frame(4)
    }
}

/// Version 2 with 130 frames, so that its index has three entries: a wave in the opening, and a note higher than the one before in every
/// fourth frame.
fn scale() -> Stream {
    let frame = |frame: u16| {
        let [high, low] = (440 + 20 * frame).to_be_bytes();
        match frame % 4 {
            0 => vec![
                Operation::write(0, 0x800, low),
                Operation::write(0, 0x801, high),
                Operation::write(0, 0x819, 1),
            ],
            _ => Vec::new(),
        }
    };
    Stream {
        pools: vec![Pool {
            kind: 1,
            payload: triangle(),
        }],
        opening: vec![
            Operation::copy(0, 0, 0, 0, WAVE),
            Operation::write(0, 0x803, 0xc0),
        ],
        frames: (0..130).map(frame).collect(),
        ..Stream::empty_frame(2)
    }
}

/// A wave.
fn triangle() -> Vec<u8> {
    let up = (0..128).map(|n| 2 * n);
    up.clone().chain(up.rev()).collect()
}

fn card(slot: u8, name: &[u8], bulk_start: u32, bulk_length: u32) -> Card {
    let mut padded = [0; 16];
    padded[..name.len()].copy_from_slice(name);
    Card {
        slot,
        name_length: name.len() as u8,
        name: padded,
        name_offset: 0x100,
        bulk_start,
        bulk_length,
    }
}
