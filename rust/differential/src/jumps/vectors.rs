//! Scripts of vsync calls and jumps with their answers, stored for programs that have no generators.
//!
//! `jumps.bin` is a list of scripts. Numbers have their highest byte first. A script has two files and the index of each, and the
//! player is started with the first file, which may be refused: then its player is finished, and its index is empty. A script begins:
//!
//! | bytes | |
//! |---|---|
//! | 4, 4 | lengths of the first and of the second file, at most 4,000 |
//! | 4, 4 | lengths of the first file's index and of the second's, at most 1,000 |
//! | 4 | number of steps |
//! | those | first file, second file, first index, second index |
//!
//! The length 0xFFFFFFFF ends the list. Each step has 32 bytes:
//!
//! | place | bytes | |
//! |---|---|---|
//! | 0 | 1 | 0 a vsync call, 1 a jump |
//! | 1 | 1 | the lent file: 0 the first, 1 the second |
//! | 2 | 1 | the lent index: 0 the first, 1 the second (0 for a vsync call) |
//! | 3 | 1 | the value of the file's byte that is another one in this step |
//! | 4 | 1 | the value of the index's byte that is another one in this step |
//! | 5 | 1 | flags: refused 1, complete 2, and behind the step finished 4 |
//! | 6 | 1 | number of the refusal, 0 for none |
//! | 7 | 1 | 0 |
//! | 8 | 2 | length of the lent file; behind a file's own bytes stand zeros, at most 4,096 in all |
//! | 10 | 2 | vsync call: records of the run; jump: length of the lent index, with zeros behind as for files |
//! | 12 | 2 | place of the file's byte that is another one in this step; 0xFFFF for none |
//! | 14 | 2 | place of the index's byte that is another one in this step; 0xFFFF for none |
//! | 16 | 4 | jump: the frame number |
//! | 20 | 2 | place of the refusal |
//! | 22 | 2 | vsync call: how many records are written |
//! | 24 | 2 | frames begun behind the step (`frame_index`) |
//! | 26 | 2 | 0 |
//! | 28 | 4 | a number made of the records, then of the wave sources behind the step |
//!
//! A byte that is another one has its old value again behind the step. The number starts at 0x811C9DC5, and each value makes it 33 times
//! itself and the value, modulo 2^32. The values are place in the run, target, address and value of each record that is written, then the
//! wave source of each channel, of core 0 and then of core 1: 0 for none, else the pool and 1.

use super::draw::{self, Drawing};
use super::others;
use super::pass::Pass;
use super::script::{Answer, Call, Lent, Script, Step};
use crate::generators::shapes::Shape;
use crate::generators::{Choice, Family, Generator};
use crate::model::weight;
use crate::rng::Rng;
use crate::{oracle, stored};

/// The longest file that is stored.
const LONGEST: usize = 4000;

/// The longest index.
const LONGEST_INDEX: usize = 1000;

/// Files with more writes in one pass are not played.
const MOST_WRITES: u64 = 4096;

/// Steps of a script.
const STEPS: usize = 24;

/// So many scripts of a seed. The four versions, repeating and not, come in turn; of three files one has up to 800 frames; in one script
/// of 24 the first file is a refused one, and in one the second.
///
/// # Errors
/// Where the library differs from the answers, or the original from what is played.
pub fn choose(count: usize, seed: u64) -> Result<Vec<Script>, String> {
    let mut rng = Rng::new(seed);
    let mut files = Files::new(seed);
    let mut scripts = Vec::with_capacity(count);
    while scripts.len() < count {
        let files = files.two(scripts.len(), &mut rng);
        let passes = draw::passes(&files);
        for (file, pass) in files.iter().zip(&passes) {
            pass.as_ref().map_or(Ok(()), |pass| pass.hold(file))?;
        }
        let script = Drawing::new(files, &passes, &mut rng).draw(STEPS);
        script.hold()?;
        let mut indexes = script.indexes.iter();
        if indexes.all(|index| index.len() <= LONGEST_INDEX) {
            scripts.push(script);
        }
    }
    Ok(scripts)
}

/// The files that are drawn from.
struct Files {
    many_frames: Generator,
    others: [Generator; 2],
    refused: Generator,
}

impl Files {
    fn new(seed: u64) -> Self {
        let of = |family| Generator::new(seed, Choice::of(family));
        Self {
            many_frames: Generator::new(
                seed,
                Choice {
                    shape: Some(Shape::ManyFrames),
                    ..Choice::of(Family::Valid)
                },
            ),
            others: [of(Family::Valid), of(Family::Boundary)],
            refused: of(Family::Damaged),
        }
    }

    /// The two files of a turn, neither with too many writes.
    fn two(&mut self, turn: usize, rng: &mut Rng) -> [Vec<u8>; 2] {
        loop {
            let own = self.accepted(turn);
            let any = self.accepted(turn + 1);
            let files = match turn % 24 {
                11 => [self.refused(), own],
                23 => [own, self.refused()],
                _ => {
                    let other = others::other(&own, &Pass::read(&own), &any, rng);
                    [own, other]
                }
            };
            if sgub::check(&files[1]).is_err() || weight::writes(&files[1]) <= MOST_WRITES {
                return files;
            }
        }
    }

    /// An accepted file, for a turn.
    fn accepted(&mut self, turn: usize) -> Vec<u8> {
        let kind = (1 + (turn % 4) as u8, (turn / 4 % 2) as u8);
        loop {
            let file = match turn / 8 % 3 {
                0 => self.many_frames.next_file(),
                which => self.others[which - 1].next_file(),
            };
            if file.len() <= LONGEST
                && oracle::judge(file).is_ok()
                && (file[4], file[6]) == kind
                && weight::writes(file) <= MOST_WRITES
            {
                return file.to_vec();
            }
        }
    }

    fn refused(&mut self) -> Vec<u8> {
        loop {
            let file = self.refused.next_file();
            if file.len() <= LONGEST && oracle::judge(file).is_err() {
                return file.to_vec();
            }
        }
    }
}

/// The stored form.
pub fn to_bytes(scripts: &[Script]) -> Vec<u8> {
    let mut bytes = Vec::new();
    for script in scripts {
        let parts = [&script.files, &script.indexes].into_iter().flatten();
        let lengths: Vec<u32> = parts.clone().map(|part| part.len() as u32).collect();
        stored::put(&mut bytes, &lengths);
        stored::put(&mut bytes, &[script.steps.len() as u32]);
        bytes.extend(parts.flatten());
        for step in &script.steps {
            bytes.extend(step_bytes(step));
        }
    }
    stored::put(&mut bytes, &[stored::END]);
    bytes
}

/// The 32 bytes of a step.
fn step_bytes(step: &Step) -> Vec<u8> {
    let none = Lent {
        which: 0,
        length: 0,
        change: None,
    };
    let (kind, index, second, frame) = match step.call {
        Call::Vsync(room) => (0, none, room, 0),
        Call::Jump(index, frame) => (1, index, index.length, frame),
    };
    let answer = &step.answer;
    let (number, place) = answer
        .refusal
        .map_or((0, 0), |refusal| (refusal.number as u8, refusal.place));
    let flags = [number > 0, answer.is_complete, answer.is_finished].map(u8::from);
    let value = |lent: Lent| lent.change.map_or(0, |(_, value)| value);
    let at = |lent: Lent| lent.change.map_or(0xFFFF, |(place, _)| place);
    let mut bytes = vec![
        kind,
        step.file.which as u8,
        index.which as u8,
        value(step.file),
        value(index),
        flags[0] + 2 * flags[1] + 4 * flags[2],
        number,
        0,
    ];
    let two = |number: usize| (number as u16).to_be_bytes();
    bytes.extend(
        [step.file.length, second, at(step.file), at(index)]
            .map(two)
            .concat(),
    );
    stored::put(&mut bytes, &[frame]);
    let told = [place, answer.records.len(), answer.frames as usize, 0];
    bytes.extend(told.map(two).concat());
    stored::put(&mut bytes, &[number_of(answer)]);
    bytes
}

/// Records and wave sources as one number.
fn number_of(answer: &Answer) -> u32 {
    let records = answer.records.iter().zip(0..).flat_map(|(record, place)| {
        let [target, value] = [record.target, record.value].map(u32::from);
        [place, target, record.address, value]
    });
    let waves = answer.waves.iter();
    let waves = waves.map(|wave| wave.map_or(0, |pool| u32::from(pool) + 1));
    stored::mixed(records.chain(waves))
}
