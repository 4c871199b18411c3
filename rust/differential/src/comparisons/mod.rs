//! The library's comparison against the format sheet's rule, applied to what the original plays.

mod counts;
pub mod listening;
mod memory;
pub mod packing;
pub mod pairs;
mod rule;
pub mod vectors;

pub use counts::Counts;

use crate::model::weight;
use crate::rng::Rng;
use listening::Listening;
use rule::Rule;
use sgub::{Comparison, Header, IMAGE_SIZE, Refusal, RefusedFile, Side};
use sgub_cli::Difference;

/// What each byte of lent memory is before the call.
const BEFORE: u8 = 0xA5;

/// Of so many pairs one is also compared with images that are too short.
const SHORT: u32 = 8;

/// The most bytes that are lent behind an image.
pub const BEHIND: usize = 16;

/// Pairs of which one file has more writes in one pass are not compared: the original collects a vsync's in memory.
pub const MOST_WRITES: u64 = 1 << 21;

/// What comparing a pair came to, on both sides.
#[derive(Clone, Copy, Debug, PartialEq, Eq)]
pub enum Outcome {
    /// The comparison passed, and the files sound the same.
    Passed,
    /// It failed, with the first difference, and whether one can be heard.
    Failed(Difference, bool),
    /// A file is refused.
    Refused(RefusedFile),
    /// A file has more than [`MOST_WRITES`] writes.
    TooLong,
}

/// Compares pairs. Its memory is used again for each.
pub struct Comparisons {
    rng: Rng,
    rule: Rule,
    lent: [Vec<u8>; 2],
    /// Lent memory before a call: a comparison with it is quicker than one byte by byte.
    before: Vec<u8>,
    listening: Listening,
}

impl Comparisons {
    /// Run lengths are drawn by this seed.
    pub fn new(seed: u64) -> Self {
        Self {
            rng: Rng::new(seed),
            rule: Rule::new(),
            lent: [(); 2].map(|()| Vec::new()),
            before: vec![BEFORE; IMAGE_SIZE + BEHIND],
            listening: Listening::new(seed),
        }
    }

    /// The images that the original leaves of the last pair that was not refused.
    pub fn images(&self) -> [&[u8]; 2] {
        self.rule.images()
    }

    /// Compares a pair by the library, in images with some bytes behind them, [`BEHIND`] at most, and by the rule; then
    /// listens to both files.
    ///
    /// # Errors
    /// What is not the same.
    pub fn compare(&mut self, files: [&[u8]; 2], behind: [usize; 2]) -> Result<Outcome, String> {
        let headers = match headers(files) {
            Ok(headers) => headers,
            Err(refused) => {
                for rooms in [[0, 0], behind] {
                    self.refused(files, rooms, refused)?;
                }
                return Ok(Outcome::Refused(refused));
            }
        };
        if files.iter().any(|file| weight::writes(file) > MOST_WRITES) {
            return Ok(Outcome::TooLong);
        }
        if self.rng.one_in(SHORT) {
            self.too_short(files, behind)?;
        }
        let difference = self.rule.difference(files, &headers)?;
        self.answered(files, behind, difference)?;
        let heard = self.listening.difference(files)?;
        match (difference, heard) {
            (None, None) => Ok(Outcome::Passed),
            (None, Some(vsync)) => Err(format!("passed, and vsync {vsync} sounds different")),
            (Some(difference), heard) => Ok(Outcome::Failed(difference, heard.is_some())),
        }
    }

    /// Has the library compare, in images with some bytes behind them.
    fn answered(
        &mut self,
        files: [&[u8]; 2],
        behind: [usize; 2],
        difference: Option<Difference>,
    ) -> Result<(), String> {
        let expected = match difference {
            None => Comparison::Passed,
            Some(_) => Comparison::Failed,
        };
        self.lend(behind.map(|behind| IMAGE_SIZE + behind));
        let [master_lent, other_lent] = &mut self.lent;
        let answer = sgub::compare(files[0], files[1], master_lent, other_lent);
        if answer != Ok(expected) {
            return Err(format!("library {answer:?}, by the rule {difference:?}"));
        }
        for (lent, image) in self.lent.iter().zip(self.images()) {
            let (front, behind) = lent.split_at(IMAGE_SIZE);
            if front != image {
                return Err(String::from("an image is not what the original leaves"));
            }
            if !self.before.starts_with(behind) {
                return Err(String::from("a byte behind an image is written"));
            }
        }
        let [master_lent, other_lent] = &self.lent;
        let words = sgub_cli::first_difference(files[0], files[1], master_lent, other_lent);
        if words != difference {
            return Err(format!("first {words:?}, by the rule {difference:?}"));
        }
        Ok(())
    }

    /// Has the library compare with an image of each side in turn a byte too short.
    fn too_short(&mut self, files: [&[u8]; 2], behind: [usize; 2]) -> Result<(), String> {
        let refusal = Refusal {
            number: 24,
            place: 0,
        };
        let short = |side| RefusedFile { side, refusal };
        self.refused(files, [IMAGE_SIZE - 1, 0], short(Side::Master))?;
        let room = IMAGE_SIZE + behind[0];
        self.refused(files, [room, IMAGE_SIZE - 1], short(Side::Other))
    }

    /// Has the library compare, and refuse with nothing written.
    fn refused(
        &mut self,
        files: [&[u8]; 2],
        rooms: [usize; 2],
        refused: RefusedFile,
    ) -> Result<(), String> {
        self.lend(rooms);
        let [master_lent, other_lent] = &mut self.lent;
        let answer = sgub::compare(files[0], files[1], master_lent, other_lent);
        let expected = Err(refused);
        if answer != expected {
            return Err(format!("library {answer:?}, expected {expected:?}"));
        }
        match self.lent.iter().all(|lent| self.before.starts_with(lent)) {
            true => Ok(()),
            false => Err(format!("{expected:?}, and an image is written")),
        }
    }

    /// Lends so much room, of which all bytes are known.
    fn lend(&mut self, rooms: [usize; 2]) {
        for (lent, room) in self.lent.iter_mut().zip(rooms) {
            lent.clear();
            lent.extend_from_slice(&self.before[..room]);
        }
    }
}

/// The headers of two files that no refusal from 1 to 21 applies to; the first refusal otherwise. Which number and place a file
/// is refused with is the library's check to say, which [`verdicts`](crate::verdicts) holds against the original.
fn headers(files: [&[u8]; 2]) -> Result<[Header; 2], RefusedFile> {
    let [master, other] = files;
    let header = |file, version, side| match sgub::check(file) {
        Err(refusal) => Err(RefusedFile { side, refusal }),
        Ok(header) if header.version != version => {
            let (number, place) = (21, 0);
            let refusal = Refusal { number, place };
            Err(RefusedFile { side, refusal })
        }
        Ok(header) => Ok(header),
    };
    Ok([
        header(master, 1, Side::Master)?,
        header(other, 2, Side::Other)?,
    ])
}
