//! A player by the format sheet and document 02, over what files play. It has no part of the library; only whether a lent file is
//! accepted, with number and place where it is not, is the library's check's word.

use super::pass::{Part, Pass, Waves};
use crate::indexes;
use sgub::{Refusal, WriteRecord};

/// A player.
#[derive(Clone)]
pub struct Player<'a> {
    /// What its file plays; none for a file that is refused.
    pass: Option<&'a Pass>,
    /// The vsync that has begun and is not complete.
    current: Option<Current<'a>>,
    is_opened: bool,
    /// Whether every closing write was given, or the file is refused.
    pub is_finished: bool,
    /// Frames of this pass that have begun.
    pub frames: usize,
    /// The wave sources.
    pub waves: Waves,
}

/// A vsync's parts, and how many of their writes were given.
#[derive(Clone)]
struct Current<'a> {
    opening: Option<&'a Part>,
    part: &'a Part,
    given: usize,
    is_closing: bool,
}

/// What the last call left.
#[derive(Clone, Copy, Debug, PartialEq, Eq)]
pub enum Situation {
    /// Nothing was played yet.
    Before,
    /// The last vsync that began is complete.
    Between,
    /// Writes of a vsync are left over.
    Within,
    /// The player is finished.
    Finished,
}

/// The refusals of a jump beside those of its file.
const fn refused(number: u32) -> Refusal {
    Refusal { number, place: 0 }
}

impl<'a> Player<'a> {
    /// A player that has played nothing.
    pub fn start(pass: Option<&'a Pass>) -> Self {
        Self {
            pass,
            current: None,
            is_opened: false,
            is_finished: pass.is_none(),
            frames: 0,
            waves: Waves::default(),
        }
    }

    /// What the last call left.
    pub fn situation(&self) -> Situation {
        match (&self.current, self.is_finished, self.is_opened) {
            (_, true, _) => Situation::Finished,
            (Some(_), ..) => Situation::Within,
            (None, _, true) => Situation::Between,
            (None, ..) => Situation::Before,
        }
    }

    /// How many writes of the vsync are left that has begun, or that is to begin.
    pub fn left(&self) -> usize {
        let mut player = self.clone();
        match player.pass {
            Some(pass) if !player.is_finished => player.current(pass).left(),
            _ => 0,
        }
    }

    /// A vsync call with the file that it plays: the records, and whether the vsync is complete.
    pub fn advance_vsync(&mut self, room: usize) -> (Vec<WriteRecord>, bool) {
        let (Some(pass), false) = (self.pass, self.is_finished) else {
            return (Vec::new(), true);
        };
        let mut current = self.current(pass);
        let count = current.left().min(room);
        let records = current.take(count, &mut self.waves);
        if let Some(opening) = current.opening {
            // Frame 1 begins with the call that gives the opening's last write.
            self.frames = usize::from(current.given >= opening.writes.len());
        }
        let is_complete = current.left() == 0;
        self.is_finished = is_complete && current.is_closing;
        self.current = (!is_complete).then_some(current);
        (records, is_complete)
    }

    /// The vsync that has begun, or the next one, which then begins.
    fn current(&mut self, pass: &'a Pass) -> Current<'a> {
        if let Some(current) = self.current.take() {
            return current;
        }
        let opening = (!self.is_opened).then_some(&pass.opening);
        self.is_opened = true;
        let is_last = self.frames == pass.frames.len();
        let is_closing = is_last && !pass.repeats();
        if !is_closing {
            self.frames = if is_last { 1 } else { self.frames + 1 };
        }
        let part = match is_closing {
            true => &pass.closing,
            false => &pass.frames[self.frames - 1],
        };
        Current {
            opening,
            part,
            given: 0,
            is_closing,
        }
    }

    /// A jump with any bytes for file and index: where the count of the frame stands that it sets the player to. The player is as it
    /// was; [`set`](Self::set) sets it.
    ///
    /// # Errors
    /// The refusals in document 02's order: 1 to 20, 25, 26, 27.
    pub fn place(&self, file: &[u8], index: &[u8], frame: u32) -> Result<usize, Refusal> {
        sgub::check(file)?;
        let lent = Pass::read(file);
        if !self.recorded(&lent) {
            return Err(refused(25));
        }
        if index != indexes::of_places(&lent.places, file.len()) {
            return Err(refused(26));
        }
        let place = (frame as usize)
            .checked_sub(1)
            .and_then(|frame| lent.places.get(frame));
        place.copied().ok_or(refused(27))
    }

    /// Whether the player's start recorded what the start of a file records: header, cards and use of target 11.
    pub fn recorded(&self, file: &Pass) -> bool {
        let own = self.pass.map(|own| (&own.head, own.uses_si22));
        own == Some((&file.head, file.uses_si22))
    }

    /// Sets the player to a frame of a file, counted from 1.
    pub fn set(&mut self, pass: &'a Pass, frame: u32) {
        self.pass = Some(pass);
        self.current = None;
        self.is_opened = true;
        self.is_finished = false;
        self.frames = frame as usize - 1;
    }
}

impl Current<'_> {
    fn parts(&self) -> impl Iterator<Item = &Part> {
        self.opening.into_iter().chain([self.part])
    }

    fn left(&self) -> usize {
        self.parts().map(|part| part.writes.len()).sum::<usize>() - self.given
    }

    /// The next writes, and the wave sources that they set.
    fn take(&mut self, count: usize, waves: &mut Waves) -> Vec<WriteRecord> {
        let taken = self.given..self.given + count;
        let mut before = 0;
        for part in self.parts() {
            for (write, whose, pool) in &part.waves {
                if taken.contains(&(before + write)) {
                    waves[*whose] = Some(*pool);
                }
            }
            before += part.writes.len();
        }
        let writes = self.parts().flat_map(|part| &part.writes);
        let writes = writes.skip(self.given).take(count).copied().collect();
        self.given += count;
        writes
    }
}
