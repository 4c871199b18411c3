//! Scripts by seed, with the answers of a player that is not the library's.

use super::pass::Pass;
use super::player::{Player, Situation};
use super::script::{Answer, Call, Lent, Script, Step};
use crate::indexes::{self, SPACING};
use crate::rng::Rng;
use sgub::Refusal;

/// Run lengths that are drawn from.
const RUNS: &[usize] = &[0, 1, 2, 7, 64, 64, 300];

/// The call in which a vsync is given the room that it needs.
const LAST_CALL: u32 = 4;

/// Draws the steps of a script.
pub struct Drawing<'a> {
    files: [Vec<u8>; 2],
    indexes: [Vec<u8>; 2],
    passes: &'a [Option<Pass>; 2],
    player: Player<'a>,
    /// Which of the files the player plays.
    plays: usize,
    rng: &'a mut Rng,
    steps: Vec<Step>,
}

/// What each file plays; none for a file that is refused.
pub fn passes(files: &[Vec<u8>; 2]) -> [Option<Pass>; 2] {
    files
        .each_ref()
        .map(|file| sgub::check(file).is_ok().then(|| Pass::read(file)))
}

impl<'a> Drawing<'a> {
    /// A script of the first file's player, without steps.
    pub fn new(files: [Vec<u8>; 2], passes: &'a [Option<Pass>; 2], rng: &'a mut Rng) -> Self {
        let index = |which: usize| {
            let pass = passes[which].as_ref();
            pass.map(|pass| indexes::of_places(&pass.places, files[which].len()))
        };
        Self {
            indexes: [0, 1].map(|which| index(which).unwrap_or_default()),
            player: Player::start(passes[0].as_ref()),
            files,
            passes,
            plays: 0,
            rng,
            steps: Vec::new(),
        }
    }

    /// About so many steps: some vsyncs, then jumps with vsyncs behind each.
    pub fn draw(mut self, steps: usize) -> Script {
        self.vsyncs();
        while self.steps.len() < steps {
            self.jump();
            // A jump on a finished player, which few others reach.
            if self.rng.one_in(6) {
                self.play_out();
                self.jump();
            }
            self.vsyncs();
        }
        Script {
            files: self.files,
            indexes: self.indexes,
            steps: self.steps,
        }
    }

    /// Up to three vsyncs, and behind a third of them a part of one.
    fn vsyncs(&mut self) {
        for _ in 0..self.rng.below(4) {
            self.vsync();
        }
        if self.rng.one_in(3) {
            self.call();
        }
    }

    /// To the last frame and the closing writes, if the file has them.
    fn play_out(&mut self) {
        let Some(pass) = &self.passes[self.plays] else {
            return;
        };
        if pass.repeats() {
            return;
        }
        let last = pass.frames.len() as u32;
        let index = self.whole_index(self.plays);
        self.jump_with(self.whole_file(self.plays), index, last);
        self.vsync();
        self.vsync();
    }

    /// Calls until a vsync is complete.
    fn vsync(&mut self) {
        for call in 0.. {
            let room = match call {
                0..LAST_CALL => self.rng.pick(RUNS),
                _ => self.player.left(),
            };
            if self.call_with(room) {
                break;
            }
        }
    }

    /// One call.
    fn call(&mut self) {
        let room = self.rng.pick(RUNS);
        self.call_with(room);
    }

    /// One call, and before one of eight another with a file of another length. Whether the vsync is complete.
    fn call_with(&mut self, room: usize) -> bool {
        let file = self.whole_file(self.plays);
        if self.rng.one_in(8) {
            let length = match self.rng.below(3) {
                0 => 0,
                1 => file.length + 1,
                _ => file.length.saturating_sub(1),
            };
            self.foreign_call(Lent { length, ..file }, room);
        }
        let situation = self.player.situation();
        let (records, is_complete) = self.player.advance_vsync(room);
        self.step(file, Call::Vsync(room), situation, |answer| Answer {
            records,
            is_complete,
            ..answer
        });
        is_complete
    }

    /// A call with a file of another length: 25, unless the player is finished.
    fn foreign_call(&mut self, file: Lent, room: usize) {
        let situation = self.player.situation();
        let is_finished = self.player.is_finished;
        self.step(file, Call::Vsync(room), situation, |answer| Answer {
            refusal: (!is_finished).then_some(Refusal {
                number: 25,
                place: 0,
            }),
            is_complete: is_finished,
            ..answer
        });
    }

    /// A jump of some kind: half of them with a file and its index to a frame that it has.
    fn jump(&mut self) {
        let which = if self.rng.one_in(4) { 1 } else { self.plays };
        let (mut file, mut index) = (self.whole_file(which), self.whole_index(which));
        let mut frame = self.frame(which);
        for _ in 0..self.rng.pick(&[0, 0, 0, 1, 1, 2]) {
            match self.rng.below(6) {
                0 => frame = self.no_frame(which),
                1 | 2 => index = self.wrong(index, 1),
                3 => file = self.wrong(file, 0),
                4 => index = self.whole_index(1 - index.which),
                _ => file = self.whole_file(1 - file.which),
            }
        }
        self.jump_with(file, index, frame);
    }

    fn jump_with(&mut self, file: Lent, index: Lent, frame: u32) {
        let situation = self.player.situation();
        let bytes = file.bytes(&self.files);
        let place = self
            .player
            .place(&bytes, &index.bytes(&self.indexes), frame);
        if let Ok(place) = place {
            let pass = self.passes[file.which].as_ref();
            // A changed file sets the player as the unchanged one does, which is lent to the calls behind it, or the step is left out:
            // what a player gives with one file behind a jump with another is nobody's promise.
            let same = |pass: &&Pass| {
                let own_place = pass.places.get(frame as usize - 1);
                own_place == Some(&place) && self.player.recorded(pass)
            };
            match pass.filter(same) {
                Some(pass) => self.player.set(pass, frame),
                None => return,
            }
            self.plays = file.which;
        }
        let refusal = place.err();
        self.step(file, Call::Jump(index, frame), situation, |answer| Answer {
            refusal,
            ..answer
        });
    }

    /// Notes a step, whose answer is made of what the player tells behind it.
    fn step(
        &mut self,
        file: Lent,
        call: Call,
        situation: Situation,
        answer: impl FnOnce(Answer) -> Answer,
    ) {
        let behind = Answer {
            refusal: None,
            records: Vec::new(),
            is_complete: false,
            is_finished: self.player.is_finished,
            frames: self.player.frames as u32,
            waves: self.player.waves,
        };
        self.steps.push(Step {
            file,
            call,
            situation,
            answer: answer(behind),
        });
    }

    fn whole_file(&self, which: usize) -> Lent {
        Lent::whole(which, &self.files[which])
    }

    fn whole_index(&self, which: usize) -> Lent {
        Lent::whole(which, &self.indexes[which])
    }

    /// A frame that a file has, often the first, the last, or one beside an entry of the index.
    fn frame(&mut self, which: usize) -> u32 {
        let count = self.frame_count(which);
        let entry = 1 + SPACING * self.rng.index(count.div_ceil(SPACING));
        let frame = match self.rng.below(6) {
            0 => 1,
            1 => count,
            2 => entry,
            3 => entry - 1,
            _ => 1 + self.rng.index(count),
        };
        frame.clamp(1, count) as u32
    }

    /// 0, or a number above the count.
    fn no_frame(&mut self, which: usize) -> u32 {
        let count = self.frame_count(which) as u32;
        match self.rng.below(4) {
            0 | 1 => 0,
            2 => count + 1,
            _ => count + 1 + self.rng.below(u32::MAX - count),
        }
    }

    /// The frames of a file; 1 for one that is refused.
    fn frame_count(&self, which: usize) -> usize {
        self.passes[which]
            .as_ref()
            .map_or(1, |pass| pass.frames.len())
    }

    /// The bytes with one of them another, or with another length; a file has the number 0 and an index 1.
    fn wrong(&mut self, lent: Lent, kind: usize) -> Lent {
        let both = [&self.files, &self.indexes][kind];
        let bytes = &both[lent.which];
        if bytes.is_empty() || self.rng.one_in(3) {
            let length = match self.rng.below(4) {
                0 => 0,
                1 => bytes.len() + 1,
                2 => bytes.len() + 4,
                _ => bytes.len().saturating_sub(1),
            };
            return Lent {
                length,
                change: None,
                ..lent
            };
        }
        // Of a file mostly the front, where a change leaves it accepted least seldom.
        let at = match self.rng.below(4) {
            0 => self.rng.index(bytes.len().min(48)),
            _ => self.rng.index(bytes.len()),
        };
        let value = bytes[at] ^ (1 << self.rng.below(8));
        Lent {
            length: bytes.len(),
            change: Some((at, value)),
            ..lent
        }
    }
}
