//! Pairs of files to join: accepted files of version 2 of every shape, files that are refused, and pairs at the limits of both together.

use super::limits;
use crate::generators::shapes::Shape;
use crate::generators::{Choice, Family, Generator};
use crate::model::Stream;
use crate::rng::Rng;

/// What a pair is.
#[derive(Clone, Copy, Debug, PartialEq, Eq)]
pub enum Kind {
    /// Two accepted files of version 2.
    Accepted,
    /// A file with itself.
    Itself,
    /// The first file is any file.
    AnyFirst,
    /// The second file is any file.
    AnySecond,
    /// Both files are any files.
    Any,
    /// Both files are of version 2, with something changed in one of them or in both.
    Changed,
    /// One of the files is accepted and of another version.
    OtherVersion,
}

impl Kind {
    /// The kinds in their turn.
    pub const TURNS: [Self; 16] = [
        Self::Accepted,
        Self::Accepted,
        Self::AnyFirst,
        Self::Accepted,
        Self::Changed,
        Self::Accepted,
        Self::AnySecond,
        Self::Accepted,
        Self::Itself,
        Self::Accepted,
        Self::OtherVersion,
        Self::Accepted,
        Self::Changed,
        Self::Accepted,
        Self::Any,
        Self::Accepted,
    ];
}

/// Of so many pairs one is at a limit of both together, in the place of the one whose turn it is.
const LIMIT: u32 = 1 << 9;

/// Of so many accepted files one has a pool of the greatest size.
const BIG_POOL: u32 = 1 << 13;

/// An endless sequence of pairs. The same seed gives the same sequence.
pub struct Pairs {
    rng: Rng,
    stream: Stream,
    any: Generator,
    version_2: Generator,
    accepted: Generator,
    turn: usize,
}

impl Pairs {
    /// The sequence of a seed.
    pub fn new(seed: u64) -> Self {
        let version_2 = Choice {
            versions: 2..=2,
            ..Choice::ANY
        };
        Self {
            rng: Rng::new(seed),
            stream: Stream::default(),
            any: Generator::new(seed, Choice::ANY),
            version_2: Generator::new(seed, version_2),
            accepted: Generator::new(seed, Choice::of(Family::Valid)),
            turn: 0,
        }
    }

    /// The next pair.
    pub fn next_pair(&mut self) -> [Vec<u8>; 2] {
        let turn = self.turn;
        self.turn += 1;
        if self.rng.one_in(LIMIT) {
            return limits::drawn(&mut self.rng);
        }
        self.pair(Kind::TURNS[turn % Kind::TURNS.len()])
    }

    /// A pair of a kind.
    pub fn pair(&mut self, kind: Kind) -> [Vec<u8>; 2] {
        match kind {
            Kind::Accepted => [self.file(), self.file()],
            Kind::Itself => {
                let file = self.file();
                [file.clone(), file]
            }
            Kind::AnyFirst => [self.any.next_file().to_vec(), self.file()],
            Kind::AnySecond => [self.file(), self.any.next_file().to_vec()],
            Kind::Any => [(); 2].map(|()| self.any.next_file().to_vec()),
            Kind::Changed => {
                let changed = self.version_2.next_file().to_vec();
                match self.rng.below(4) {
                    0 => [changed, self.version_2.next_file().to_vec()],
                    1 => [changed, self.file()],
                    _ => [self.file(), changed],
                }
            }
            Kind::OtherVersion => {
                let other = self.accepted.next_file().to_vec();
                match self.rng.one_in(2) {
                    true => [other, self.file()],
                    false => [self.file(), other],
                }
            }
        }
    }

    /// An accepted file of version 2.
    fn file(&mut self) -> Vec<u8> {
        let shape = shape(&mut self.rng);
        shape.draw(2, &mut self.rng, &mut self.stream);
        self.stream.to_bytes()
    }
}

/// A shape of version 2, more often one with COPYs.
fn shape(rng: &mut Rng) -> Shape {
    if rng.one_in(BIG_POOL) {
        return Shape::BigPool;
    }
    match rng.below(64) {
        0 => Shape::ManyFrames,
        1..=3 => Shape::Limits,
        4..=11 => Shape::Pools,
        12..=35 => Shape::Copies,
        36..=43 => Shape::NoOpening,
        44..=47 => Shape::EmptyFrames,
        _ => Shape::Small,
    }
}
