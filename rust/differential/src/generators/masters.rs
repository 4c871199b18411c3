//! Masters for repacking: those at the limits of a result and of the wave table, made without chance, and drawn ones.

use super::shapes::{Large, Shape, large};
use crate::model::{MAX_SIZE, Operation, PCM, PCM_MEMORY, Stream, WAVE, WAVE_MEMORY};
use crate::rng::Rng;

/// How the waves of a master differ.
#[derive(Clone, Copy, Debug, PartialEq, Eq)]
pub enum Waves {
    /// In bytes by chance.
    Different,
    /// In the last byte only, so that there are 256 of them.
    AlikeInFront,
    /// In the first two bytes only.
    AlikeBehind,
    /// Not at all.
    Same,
}

/// The most waves that a master has room for.
pub const MOST_WAVES: usize = 11_468;

/// Waves in one frame, at most: 65,280 of the 65,535 records that it may have.
const WAVES_PER_FRAME: usize = 255;

/// A master of so many wave uploads, as many as fit in each frame.
pub fn of_waves(waves: Waves, count: usize) -> Vec<u8> {
    let rng = &mut Rng::new(waves as u64);
    let mut stream = Stream::default();
    stream.reset(1);
    let mut values = [0; WAVE as usize];
    rng.fill(&mut values);
    for index in 0..count {
        let [high, low] = (index as u16).to_be_bytes();
        match waves {
            Waves::Different => rng.fill(&mut values),
            Waves::AlikeInFront => values[255] = low,
            Waves::AlikeBehind => [values[0], values[1]] = [high, low],
            Waves::Same => {}
        }
        if index.is_multiple_of(WAVES_PER_FRAME) {
            stream.frames.push(Vec::new());
        }
        let frame = stream.frames.last_mut().expect("one was pushed");
        let address = index as u32 * WAVE % WAVE_MEMORY;
        let records = (address..).zip(values);
        let core = (index / 8 % 2) as u8;
        frame.extend(records.map(|(address, value)| Operation::write(core, address, value)));
    }
    stream.to_bytes()
}

/// A master whose result has exactly so many bytes: 126,000 or more. PCM of one byte or two makes the number even or odd.
pub fn of_result(size: usize) -> Vec<u8> {
    const FRAMES: usize = 300;
    const RECORD: Operation = Operation::write(1, 0x8ff, 0x55);
    let pcm = 1 + size % 2;
    // Header, pool entry, payload, FILL and COPY; then 2 bytes a frame and 6 a record.
    let rest = size - (40 + 16 + pcm + 10 + 15) - 2 * FRAMES;
    let (records, more) = (rest / 6, rest % 6 / 2);
    let mut stream = Stream::default();
    stream.reset(1);
    let written = (0..pcm as u32).map(|address| Operation::write(PCM, address, 0x55));
    stream.opening.extend(written);
    for index in 0..FRAMES {
        let count = records / FRAMES + usize::from(index < records % FRAMES);
        stream.frames.push(vec![RECORD; count]);
    }
    stream.frames.resize(FRAMES + more, Vec::new());
    stream.to_bytes()
}

/// A master with so many PCM bytes in its opening and one empty frame.
pub fn of_pcm(count: u32) -> Vec<u8> {
    let mut stream = Stream::empty_frame(1);
    let records = (0..count).map(|address| Operation::write(PCM, address, address as u8));
    stream.opening.extend(records);
    stream.to_bytes()
}

/// Visits the masters that are made without chance.
pub fn for_each(mut visit: impl FnMut(&[u8])) {
    for size in MAX_SIZE - 2..=MAX_SIZE + 2 {
        visit(&of_result(size));
    }
    for count in [0, 1, 2, PCM_MEMORY - 1, PCM_MEMORY] {
        visit(&of_pcm(count));
    }
    for waves in [
        Waves::Different,
        Waves::AlikeInFront,
        Waves::AlikeBehind,
        Waves::Same,
    ] {
        for count in [1, 2, 255, 256, 257, MOST_WAVES] {
            visit(&of_waves(waves, count));
        }
    }
    for shape in [
        Large::V1Records,
        Large::V1EmptyFrames,
        Large::V1Waves,
        Large::V1Pcm,
    ] {
        for bytes in [100_000, 10_000_000, MAX_SIZE] {
            visit(&large(shape, bytes));
        }
    }
}

/// An endless sequence of accepted masters. The same seed gives the same sequence.
pub struct Masters {
    rng: Rng,
    stream: Stream,
    part: Stream,
    file: Vec<u8>,
}

/// The drawn masters of which one has all of PCM memory, and those of which one is long.
const SELDOM: u32 = 1 << 13;

impl Masters {
    /// The sequence of a seed.
    pub fn new(seed: u64) -> Self {
        Self {
            rng: Rng::new(seed),
            stream: Stream::default(),
            part: Stream::default(),
            file: Vec::new(),
        }
    }

    /// The next master as bytes.
    pub fn next_file(&mut self) -> &[u8] {
        self.next_stream();
        self.stream.write(&mut self.file, &mut ());
        &self.file
    }

    /// The next master: the opening of one shape, and the frames of it and of a few others, or of hundreds.
    pub fn next_stream(&mut self) -> &Stream {
        let rng = &mut self.rng;
        let shape = if rng.one_in(SELDOM) {
            Shape::PcmFull
        } else {
            any(rng)
        };
        shape.draw(1, rng, &mut self.stream);
        let parts = if rng.one_in(SELDOM) {
            rng.between(100, 2000)
        } else {
            rng.below(3)
        };
        for _ in 0..parts {
            any(rng).draw(1, rng, &mut self.part);
            self.stream.frames.append(&mut self.part.frames);
        }
        &self.stream
    }
}

/// A master's shape that is not huge. `ManyFrames`, which has hundreds, is as frequent as the others.
fn any(rng: &mut Rng) -> Shape {
    loop {
        let shape = rng.pick(&Shape::ALL);
        if shape.is_of(1) && !shape.is_huge() {
            return shape;
        }
    }
}
