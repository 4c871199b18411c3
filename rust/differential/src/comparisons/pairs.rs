//! Pairs of files to compare: a master with its repacking, with the same packed otherwise, with a near miss of one of the
//! rule's clauses, and files that are refused.

use super::packing::{Style, pack};
use crate::generators::masters::Masters;
use crate::generators::{Choice, Generator, mutate};
use crate::model::{CORE_SPACE, Operation, PCM, PCM_MEMORY, Stream};
use crate::rng::Rng;

/// What the second file is.
#[derive(Clone, Copy, Debug, PartialEq, Eq)]
pub enum Kind {
    /// The library's repacking; the master in version 2 as WRITEs where it is refused.
    Repacked,
    /// Packed otherwise.
    Packed(Style),
    /// Packed otherwise, with something changed in one of the files.
    Changed(Change),
    /// The repacking with some bytes damaged.
    Damaged,
    /// The first file is any file.
    AnyMaster,
    /// The second file is any file.
    AnyOther,
}

/// A near miss: what is changed. It may turn out to change nothing that counts.
#[derive(Clone, Copy, Debug, PartialEq, Eq)]
pub enum Change {
    /// One repeats, the other does not.
    Repeat,
    /// A frame more or less.
    FrameCount,
    /// Two operations of the opening change places.
    OpeningOrder,
    /// A core write more at the end of an opening, or the last operation of one less.
    OpeningLength,
    /// A core write of the opening goes to the other core.
    OpeningTarget,
    /// A PCM byte more in an opening, or another byte in a pool.
    PcmByte,
    /// The last frame has a write more or less, or another value.
    LastFrame,
    /// A PCM write more or less in a frame.
    FramePcm,
    /// Two frames change places, or writes move from one to the next.
    FrameOrder,
    /// An operation goes from the end of the opening to frame 1, or from there to the opening.
    Moved,
}

impl Kind {
    /// All kinds.
    pub const ALL: [Self; 17] = [
        Self::Repacked,
        Self::Packed(Style::Writes),
        Self::Packed(Style::Fills),
        Self::Packed(Style::Mixed),
        Self::Changed(Change::Repeat),
        Self::Changed(Change::FrameCount),
        Self::Changed(Change::OpeningOrder),
        Self::Changed(Change::OpeningLength),
        Self::Changed(Change::OpeningTarget),
        Self::Changed(Change::PcmByte),
        Self::Changed(Change::LastFrame),
        Self::Changed(Change::FramePcm),
        Self::Changed(Change::FrameOrder),
        Self::Changed(Change::Moved),
        Self::Damaged,
        Self::AnyMaster,
        Self::AnyOther,
    ];
}

/// An endless sequence of pairs, of each kind in turn. The same seed gives the same sequence.
pub struct Pairs {
    rng: Rng,
    masters: Masters,
    any: Generator,
    turn: usize,
}

impl Pairs {
    /// The sequence of a seed.
    pub fn new(seed: u64) -> Self {
        Self {
            rng: Rng::new(seed),
            masters: Masters::new(seed),
            any: Generator::new(seed, Choice::ANY),
            turn: 0,
        }
    }

    /// The next pair, a master and another file, and its kind.
    pub fn next_pair(&mut self) -> (Kind, [Vec<u8>; 2]) {
        let kind = Kind::ALL[self.turn % Kind::ALL.len()];
        self.turn += 1;
        let rng = &mut self.rng;
        let master = self.masters.next_stream();
        let file = master.to_bytes();
        let repacked = |rng: &mut Rng| {
            sgub::repack_to_vec(&file)
                .unwrap_or_else(|_| pack(rng, Style::Writes, master).to_bytes())
        };
        let pair = match kind {
            Kind::Repacked => {
                let other = repacked(rng);
                [file, other]
            }
            Kind::Packed(style) => {
                let other = pack(rng, style, master).to_bytes();
                [file, other]
            }
            Kind::Changed(change) => {
                let style = rng.pick(&Style::ALL);
                let mut pair = [master.clone(), pack(rng, style, master)];
                let index = rng.index(2);
                change.apply(rng, &mut pair[index]);
                pair.map(|stream| stream.to_bytes())
            }
            Kind::Damaged => {
                let other = repacked(rng);
                let mut damaged = Vec::new();
                mutate::damage(rng, &other, &file, &mut damaged);
                [file, damaged]
            }
            Kind::AnyMaster => {
                let other = repacked(rng);
                [self.any.next_file().to_vec(), other]
            }
            Kind::AnyOther => [file, self.any.next_file().to_vec()],
        };
        (kind, pair)
    }
}

/// A write to a core.
fn core_write(rng: &mut Rng) -> Operation {
    let (core, address) = (rng.below(2) as u8, rng.below(CORE_SPACE));
    Operation::write(core, address, rng.byte())
}

/// A write to PCM memory, mostly to its front.
fn pcm_write(rng: &mut Rng) -> Operation {
    let space = rng.pick(&[1, 4, 64, PCM_MEMORY]);
    Operation::write(PCM, rng.below(space), rng.byte())
}

impl Change {
    /// Changes one of the files.
    fn apply(self, rng: &mut Rng, one: &mut Stream) {
        match self {
            Self::Repeat => one.repeat = !one.repeat,
            Self::FrameCount if one.frames.len() > 1 && rng.one_in(2) => {
                one.frames.pop();
            }
            Self::FrameCount => one.frames.push(Vec::new()),
            Self::OpeningOrder => swap(rng, &mut one.opening),
            Self::OpeningLength if rng.one_in(2) => {
                one.opening.pop();
            }
            Self::OpeningLength => one.opening.push(core_write(rng)),
            Self::OpeningTarget => retarget(rng, &mut one.opening),
            Self::PcmByte => pcm_byte(rng, one),
            Self::LastFrame => {
                let frame = one.frames.last_mut().expect("there is a frame");
                change_last(rng, frame);
            }
            Self::FramePcm => {
                let index = rng.index(one.frames.len());
                frame_pcm(rng, &mut one.frames[index]);
            }
            Self::FrameOrder => frame_order(rng, &mut one.frames),
            Self::Moved => moved(rng, one),
        }
    }
}

/// Two items change places; neighbours in half of the cases.
fn swap<T>(rng: &mut Rng, items: &mut [T]) {
    if items.len() < 2 {
        return;
    }
    let first = rng.index(items.len() - 1);
    let second = if rng.one_in(2) {
        first + 1
    } else {
        rng.index(items.len())
    };
    items.swap(first, second);
}

/// An operation to a core goes to the other core.
fn retarget(rng: &mut Rng, opening: &mut [Operation]) {
    let mut targets: Vec<&mut u8> = opening
        .iter_mut()
        .map(|operation| match operation {
            Operation::Write { target, .. }
            | Operation::Fill { target, .. }
            | Operation::Copy { target, .. } => target,
        })
        .filter(|target| **target != PCM)
        .collect();
    if !targets.is_empty() {
        let index = rng.index(targets.len());
        *targets[index] ^= 1;
    }
}

/// A byte of a PCM pool is another, or a PCM write is put into the opening.
fn pcm_byte(rng: &mut Rng, stream: &mut Stream) {
    let pool = stream.pools.iter_mut().find(|pool| pool.kind == 2);
    match pool {
        Some(pool) if rng.one_in(2) => {
            let at = rng.index(pool.payload.len());
            pool.payload[at] ^= 1 << rng.below(8);
        }
        _ => {
            let at = rng.index(stream.opening.len() + 1);
            stream.opening.insert(at, pcm_write(rng));
        }
    }
}

/// A write more or less at the end, or another value in the last one.
fn change_last(rng: &mut Rng, frame: &mut Vec<Operation>) {
    match (rng.below(3), frame.last_mut()) {
        (0, Some(_)) => {
            frame.pop();
        }
        (1, Some(Operation::Write { value, .. } | Operation::Fill { value, .. })) => *value ^= 1,
        _ => frame.push(core_write(rng)),
    }
}

/// A PCM write more or less.
fn frame_pcm(rng: &mut Rng, frame: &mut Vec<Operation>) {
    let is_pcm = |operation: &Operation| matches!(operation, Operation::Write { target: PCM, .. });
    match frame.iter().position(is_pcm) {
        Some(at) if rng.one_in(2) => {
            frame.remove(at);
        }
        _ => {
            let at = rng.index(frame.len() + 1);
            frame.insert(at, pcm_write(rng));
        }
    }
}

/// Two frames change places, or the last operation of a frame goes to the front of the next.
fn frame_order(rng: &mut Rng, frames: &mut [Vec<Operation>]) {
    if frames.len() > 1 && rng.one_in(2) {
        let index = rng.index(frames.len() - 1);
        if let Some(operation) = frames[index].pop() {
            frames[index + 1].insert(0, operation);
        }
    } else {
        swap(rng, frames);
    }
}

/// The last operation of the opening goes to the front of frame 1, or the first of frame 1 to the end of the opening. A listener
/// cannot tell: the first vsync plays both.
fn moved(rng: &mut Rng, stream: &mut Stream) {
    let frame = &mut stream.frames[0];
    if !frame.is_empty() && rng.one_in(2) {
        stream.opening.push(frame.remove(0));
    } else if let Some(operation) = stream.opening.pop() {
        frame.insert(0, operation);
    }
}
