//! Version 1: what a master holds, with the cases that repacking must tell apart.

use super::Shape;
use crate::model::{CORE_SPACE, Operation, PCM, PCM_MEMORY, Stream, WAVE, WAVE_MEMORY};
use crate::rng::Rng;

pub(super) type Frame = Vec<Operation>;
pub(super) type Wave = [u8; WAVE as usize];

pub(super) fn draw(shape: Shape, rng: &mut Rng, stream: &mut Stream) {
    match shape {
        Shape::Small => {
            opening(rng, stream);
            frames(rng, stream, 4, 4);
        }
        Shape::NoOpening => frames(rng, stream, 4, 4),
        Shape::EmptyFrames => frames(rng, stream, 6, 0),
        Shape::ManyFrames => {
            opening(rng, stream);
            frames(rng, stream, 800, 1);
        }
        Shape::PcmOrdered => {
            let count = rng.between(1, 300);
            pcm_in_order(rng, stream, count);
            frames(rng, stream, 2, 2);
        }
        Shape::PcmDisordered => {
            let count = rng.between(1, 40);
            pcm_in_order(rng, stream, count);
            disorder(rng, stream);
            frames(rng, stream, 2, 2);
        }
        Shape::PcmFull => {
            pcm_in_order(rng, stream, PCM_MEMORY);
            frames(rng, stream, 2, 2);
        }
        _ => waves(shape, rng, stream),
    }
}

fn core_record(rng: &mut Rng) -> Operation {
    let address = rng.below(CORE_SPACE);
    Operation::write(rng.below(2) as u8, address, rng.byte())
}

fn any_record(rng: &mut Rng) -> Operation {
    if rng.one_in(4) {
        Operation::write(PCM, rng.below(PCM_MEMORY), rng.byte())
    } else {
        core_record(rng)
    }
}

/// A few records; PCM writes, if any, run 0, 1, 2 in half of the openings.
fn opening(rng: &mut Rng, stream: &mut Stream) {
    let count = rng.below(5);
    match rng.below(4) {
        0 => stream.opening.extend((0..count).map(|_| any_record(rng))),
        1 => stream.opening.extend((0..count).map(|_| core_record(rng))),
        _ => pcm_in_order(rng, stream, count),
    }
}

/// `count` PCM records from address 0 on, a core record between them now and then.
fn pcm_in_order(rng: &mut Rng, stream: &mut Stream, count: u32) {
    for address in 0..count {
        if rng.one_in(8) {
            stream.opening.push(core_record(rng));
        }
        stream
            .opening
            .push(Operation::write(PCM, address, rng.byte()));
    }
}

/// Breaks the order of the PCM records: one is moved, doubled or left out, or all start at 1.
fn disorder(rng: &mut Rng, stream: &mut Stream) {
    let index = rng.index(stream.opening.len());
    match rng.below(4) {
        0 => {
            let other = rng.index(stream.opening.len());
            stream.opening.swap(index, other);
        }
        1 => stream.opening.push(stream.opening[index]),
        2 => {
            stream.opening.remove(index);
        }
        _ => {
            for operation in &mut stream.opening {
                if let Operation::Write {
                    target: PCM,
                    address,
                    ..
                } = operation
                {
                    *address += 1;
                }
            }
        }
    }
}

/// Up to `most` frames, at least one, each with up to `records` records.
fn frames(rng: &mut Rng, stream: &mut Stream, most: u32, records: u32) {
    for _ in 0..rng.between(1, most) {
        let count = rng.below(records + 1);
        let frame = (0..count).map(|_| any_record(rng)).collect();
        stream.frames.push(frame);
    }
}

pub(super) fn wave(rng: &mut Rng) -> Wave {
    let mut wave = [0; WAVE as usize];
    rng.fill(&mut wave);
    wave
}

/// The first address of a channel's wave.
pub(super) fn channel(rng: &mut Rng) -> u32 {
    rng.below(WAVE_MEMORY / WAVE) * WAVE
}

/// Records to one core at consecutive addresses.
pub(super) fn run(frame: &mut Frame, target: u8, address: u32, values: &[u8]) {
    let records = (address..).zip(values);
    frame.extend(records.map(|(address, value)| Operation::write(target, address, *value)));
}

/// A few records around what a wave shape is about.
fn around(rng: &mut Rng, frame: &mut Frame) {
    for _ in 0..rng.below(3) {
        frame.push(any_record(rng));
    }
}

fn waves(shape: Shape, rng: &mut Rng, stream: &mut Stream) {
    opening(rng, stream);
    let mut frame = Frame::new();
    around(rng, &mut frame);
    match shape {
        Shape::WaveCrossing => {
            let cut = rng.between(1, WAVE - 1) as usize;
            let (core, address) = (rng.below(2) as u8, channel(rng));
            run(&mut frame, core, address, &wave(rng));
            let mut next = frame.split_off(frame.len() - cut);
            around(rng, &mut next);
            stream.frames.push(std::mem::replace(&mut frame, next));
        }
        Shape::WaveRepeated | Shape::WaveAlike => {
            let mut values = wave(rng);
            for _ in 0..rng.between(2, 5) {
                run(&mut frame, rng.below(2) as u8, channel(rng), &values);
                around(rng, &mut frame);
                if shape == Shape::WaveAlike {
                    values[rng.index(values.len())] ^= 1 << rng.below(8);
                }
                if rng.one_in(2) {
                    stream.frames.push(std::mem::take(&mut frame));
                }
            }
        }
        _ => one_run(shape, rng, &mut frame),
    }
    around(rng, &mut frame);
    stream.frames.push(frame);
}

/// One run of records in one frame.
fn one_run(shape: Shape, rng: &mut Rng, frame: &mut Frame) {
    let core = rng.below(2) as u8;
    let address = channel(rng);
    let values = wave(rng);
    match shape {
        Shape::WaveShort => run(frame, core, address, &values[..values.len() - 1]),
        Shape::WaveShifted => {
            let shifted = (address + rng.between(1, WAVE - 1)).min(CORE_SPACE - WAVE - 1);
            run(frame, core, shifted, &values);
            let behind = shifted + WAVE;
            let room = CORE_SPACE - behind;
            let more = rng.below(room.min(WAVE * 2)) as usize;
            run(frame, core, behind, &[values, values].concat()[..more]);
        }
        Shape::WaveBroken => {
            let start = frame.len();
            run(frame, core, address, &values);
            break_run(rng, frame, start);
        }
        Shape::WavePast => {
            let waves = rng.between(1, (CORE_SPACE - address) / WAVE);
            for index in 0..waves {
                run(frame, core, address + index * WAVE, &wave(rng));
            }
        }
        _ => run(frame, core, address, &values),
    }
}

/// Makes the 256 records from `start` on something else than a wave. The last one stays: a record behind it would not
/// break the wave.
fn break_run(rng: &mut Rng, frame: &mut Frame, start: usize) {
    let index = start + rng.index(WAVE as usize - 1);
    let Operation::Write {
        target,
        address,
        value,
    } = frame[index]
    else {
        unreachable!("a run has WRITEs only");
    };
    match rng.below(4) {
        0 => frame[index] = Operation::write(1 - target, address, value),
        1 => frame[index] = Operation::write(target, address ^ 1, value),
        2 => frame.insert(index + 1, Operation::write(target, address, value)),
        _ => {
            frame.remove(index);
        }
    }
}
