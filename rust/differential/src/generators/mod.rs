//! Files by seed: accepted ones of every shape, and families of copies with something wrong.

pub mod boundary;
pub mod extremes;
pub mod limits;
pub mod masters;
pub mod mutate;
pub mod shapes;
pub mod short;

use crate::model::Stream;
use crate::model::fields::Field;
use crate::rng::Rng;
use shapes::Shape;
use std::ops::RangeInclusive;

/// What is done to an accepted file.
#[derive(Clone, Copy, Debug, PartialEq, Eq)]
pub enum Family {
    /// Nothing: the file is accepted.
    Valid,
    /// One field has another value.
    Field,
    /// One operation, card, pool or period lies at or beside a limit of the sheet.
    Boundary,
    /// It is cut off, at every length if it is small, with the old and with the fitting total size.
    Truncated,
    /// Bytes are changed, moved, put in, taken out, or come from another file.
    Damaged,
}

impl Family {
    /// All families.
    pub const ALL: [Self; 5] = [
        Self::Valid,
        Self::Field,
        Self::Boundary,
        Self::Truncated,
        Self::Damaged,
    ];

    /// How many files are made of one accepted file.
    fn copies(self, size: usize) -> usize {
        match self {
            Self::Valid | Self::Boundary => 1,
            Self::Truncated if size <= SMALL => 2 * (size + 1),
            _ if size <= HUGE => 32,
            _ => 4,
        }
    }
}

/// The longest file that is cut off at every length.
const SMALL: usize = 1024;

/// The longest file of which many copies are made.
const HUGE: usize = 1 << 16;

/// Which files a generator makes.
#[derive(Clone, Debug)]
pub struct Choice {
    /// The versions that are drawn from.
    pub versions: RangeInclusive<u8>,
    /// The shape that all files have; `None` for any.
    pub shape: Option<Shape>,
    /// The family that all files have; `None` for any.
    pub family: Option<Family>,
}

impl Choice {
    /// Files of every version, shape and family.
    pub const ANY: Self = Self {
        versions: 1..=4,
        shape: None,
        family: None,
    };

    /// Files of every version and shape of one family.
    pub fn of(family: Family) -> Self {
        Self {
            family: Some(family),
            ..Self::ANY
        }
    }
}

/// An endless sequence of files. The same choice and seed give the same sequence.
pub struct Generator {
    rng: Rng,
    choice: Choice,
    family: Family,
    stream: Stream,
    base: Vec<u8>,
    fields: Vec<Field>,
    /// The accepted file before `base`.
    other: Vec<u8>,
    file: Vec<u8>,
    left: usize,
}

impl Generator {
    /// The sequence of a seed.
    pub fn new(seed: u64, choice: Choice) -> Self {
        Self {
            rng: Rng::new(seed),
            choice,
            family: Family::Valid,
            stream: Stream::default(),
            base: Vec::new(),
            fields: Vec::new(),
            other: Vec::new(),
            file: Vec::new(),
            left: 0,
        }
    }

    /// The next file; its memory is used again for the one after it.
    ///
    /// # Panics
    /// If a chosen version does not have the chosen shape.
    pub fn next_file(&mut self) -> &[u8] {
        if self.left == 0 {
            self.next_base();
        }
        self.left -= 1;
        let Self {
            rng,
            base,
            fields,
            other,
            file,
            ..
        } = self;
        match self.family {
            Family::Valid | Family::Boundary => return base,
            Family::Field => mutate::break_field(rng, base, fields, file),
            Family::Truncated => {
                let length = if base.len() <= SMALL {
                    self.left / 2
                } else {
                    rng.index(base.len())
                };
                mutate::truncate(base, length, self.left.is_multiple_of(2), file);
            }
            Family::Damaged => mutate::damage(rng, base, other, file),
        }
        file
    }

    /// The family of the last file.
    pub fn family(&self) -> Family {
        self.family
    }

    fn next_base(&mut self) {
        let rng = &mut self.rng;
        let versions = self.choice.versions.clone();
        let version = rng.between(u32::from(*versions.start()), u32::from(*versions.end())) as u8;
        self.family = self.choice.family.unwrap_or_else(|| any_family(rng));
        let shape = match self.choice.shape {
            Some(shape) => shape,
            // A boundary file is made once, and what is not at the limit does not matter in it.
            None if self.family == Family::Boundary => Shape::Small,
            None => Shape::any(version, rng),
        };
        shape.draw(version, rng, &mut self.stream);
        if self.family == Family::Boundary {
            boundary::set(rng, &mut self.stream);
        }
        std::mem::swap(&mut self.base, &mut self.other);
        match self.family {
            Family::Field => self.stream.write(&mut self.base, &mut self.fields),
            _ => self.stream.write(&mut self.base, &mut ()),
        }
        self.left = self.family.copies(self.base.len());
    }
}

/// The family of the copies of one accepted file. A family of which many copies are made is drawn seldom: of the files,
/// about an eighth each are accepted as they stand and cut off, and a quarter each are of the other families.
fn any_family(rng: &mut Rng) -> Family {
    match rng.below(4096) {
        0..=2 => Family::Truncated,
        3..=84 => Family::Field,
        85..=166 => Family::Damaged,
        167..=1475 => Family::Valid,
        _ => Family::Boundary,
    }
}
