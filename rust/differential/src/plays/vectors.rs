//! Scripts of vsync calls with the library's answers, stored for programs that have no generators.
//!
//! Versions, and files that repeat and that do not, come in turn. Each file is played past its end, with runs of a few lengths, and is
//! held against the original's vsyncs. Between the calls stand calls with files that are not the player's.

use crate::generators::{Choice, Family, Generator};
use crate::model::weight;
use crate::oracle::{self, Vsync};
use crate::rng::Rng;
use crate::stored;
use sgub::{StreamPlayer, WriteRecord};

/// The longest file that is stored.
const LONGEST: usize = 2048;

/// The most calls of a script.
const MOST_CALLS: usize = 120;

/// Files with more writes in one pass are not played.
const MOST_WRITES: u64 = 4096;

/// Run lengths that are drawn from.
const RUNS: &[usize] = &[0, 1, 2, 7, 7, 64, 64, 64];

/// A byte that is changed before a call.
#[derive(Clone, Copy, Debug)]
struct Change {
    place: usize,
    value: u8,
}

/// No byte is changed: the place is behind every buffer.
const NO_CHANGE: Change = Change {
    place: 0xFFFF,
    value: 0,
};

/// A call and its answer.
#[derive(Clone, Debug)]
pub struct Call {
    /// The length of the lent file: so many bytes of what the program has read.
    length: usize,
    room: usize,
    change: Change,
    /// Whether the call is refused.
    pub refused: bool,
    complete: bool,
    finished: bool,
    count: usize,
    frame: u32,
    records: u32,
}

/// A file and the calls of its player.
#[derive(Clone, Debug)]
pub struct Script {
    file: Vec<u8>,
    /// The calls.
    pub calls: Vec<Call>,
}

/// So many scripts of a seed.
///
/// # Errors
/// Where the library differs from the original.
pub fn choose(count: usize, seed: u64) -> Result<Vec<Script>, String> {
    let mut rng = Rng::new(seed);
    let mut scripts = Vec::with_capacity(count);
    let mut generators =
        [Family::Valid, Family::Boundary].map(|family| Generator::new(seed, Choice::of(family)));
    while scripts.len() < count {
        let turn = scripts.len();
        let file = generators[turn / 8 % 2].next_file();
        let kind = (1 + (turn % 4) as u8, turn / 4 % 2 == 1);
        if file.len() > LONGEST
            || oracle::judge(file).is_err()
            || weight::writes(file) > MOST_WRITES
        {
            continue;
        }
        let player = start(file)?;
        if (player.version(), player.repeats()) != kind {
            continue;
        }
        let file = file.to_vec();
        let calls = Playing::new(&file, player, &mut rng)?.play()?;
        if calls.len() <= MOST_CALLS {
            scripts.push(Script { file, calls });
        }
    }
    Ok(scripts)
}

fn start(file: &[u8]) -> Result<StreamPlayer, String> {
    StreamPlayer::start(file).map_err(|refusal| format!("library {refusal:?}: {file:02x?}"))
}

/// A file that both play.
struct Playing<'a> {
    /// The player's own file, and what is lent: the same but for changed bytes.
    own: &'a [u8],
    lent: Vec<u8>,
    player: StreamPlayer,
    original: oracle::Player,
    rng: &'a mut Rng,
    calls: Vec<Call>,
}

impl<'a> Playing<'a> {
    fn new(file: &'a [u8], player: StreamPlayer, rng: &'a mut Rng) -> Result<Self, String> {
        Ok(Self {
            own: file,
            lent: file.to_vec(),
            player,
            original: oracle::Player::new(file)?,
            rng,
            calls: Vec::new(),
        })
    }

    /// All frames, and two to five vsyncs behind them; no more than a script may have.
    fn play(mut self) -> Result<Vec<Call>, String> {
        let vsyncs = self
            .player
            .frame_count()
            .saturating_add(self.rng.between(2, 5));
        let mut theirs = Vsync::default();
        for _ in 0..vsyncs {
            self.original.advance_vsync(&mut theirs);
            let ours = self.vsync()?;
            let (devices, cores): (Vec<_>, Vec<_>) =
                ours.into_iter().partition(|write| write.0 > 2);
            let states = (self.player.is_finished(), self.player.frame_index())
                == (self.original.is_finished(), self.original.frame_index());
            if cores != theirs.writes || devices != theirs.device_writes || !states {
                return Err(format!("the original plays otherwise: {:02x?}", self.own));
            }
            if self.calls.len() > MOST_CALLS {
                break;
            }
        }
        Ok(self.calls)
    }

    /// The writes of one vsync, call by call.
    fn vsync(&mut self) -> Result<Vec<oracle::Write>, String> {
        let mut writes = Vec::new();
        loop {
            let back = if self.rng.one_in(6) {
                self.foreign()?
            } else {
                NO_CHANGE
            };
            let room = self.rng.pick(RUNS);
            let run = self.call(self.own.len(), room, back);
            writes.extend(run.iter().map(|it| (it.target, it.address, it.value)));
            let call = self.calls.last().expect("there was a call");
            if call.refused {
                return Err(format!(
                    "the library refuses its own file: {:02x?}",
                    self.own
                ));
            }
            if call.complete {
                return Ok(writes);
            }
        }
    }

    /// A call with another length, or with a changed byte where that is refused, and what puts the byte back.
    fn foreign(&mut self) -> Result<Change, String> {
        let room = self.rng.pick(RUNS);
        let length = self.own.len();
        if self.rng.one_in(2) {
            let length = match self.rng.below(4) {
                0 => 0,
                1 => length + 1,
                2 => self.rng.index(length),
                _ => length - 1,
            };
            self.refused(length, room, NO_CHANGE)?;
            return Ok(NO_CHANGE);
        }
        for _ in 0..200 {
            let place = self.rng.index(length);
            let change = Change {
                place,
                value: self.rng.byte(),
            };
            let mut other = self.own.to_vec();
            other[place] = change.value;
            let mut run = vec![WriteRecord::default(); room];
            let told = self.player.clone().advance_vsync(&other, &mut run);
            if told.is_err() {
                self.refused(length, room, change)?;
                let value = self.own[place];
                return Ok(Change { place, value });
            }
        }
        Ok(NO_CHANGE)
    }

    /// A call that the library has to refuse, with nothing changed, unless the player is finished.
    fn refused(&mut self, length: usize, room: usize, change: Change) -> Result<(), String> {
        let before = self.player.clone();
        self.call(length, room, change);
        let refused = self.calls.last().is_some_and(|call| call.refused);
        if refused == before.is_finished() || self.player != before {
            return Err(format!("a foreign file: {before:?}: {:02x?}", self.own));
        }
        Ok(())
    }

    /// One call of the library; its answer is kept, its records are told.
    fn call(&mut self, length: usize, room: usize, change: Change) -> Vec<WriteRecord> {
        if let Some(byte) = self.lent.get_mut(change.place) {
            *byte = change.value;
        }
        let mut file = self.lent.clone();
        file.resize(length, 0);
        let mut run = vec![WriteRecord::default(); room];
        let told = self.player.advance_vsync(&file, &mut run);
        let (count, complete) = told.map_or((0, false), |told| (told.count, told.complete));
        run.truncate(count);
        self.calls.push(Call {
            length,
            room,
            change,
            refused: told.is_err(),
            complete,
            finished: self.player.is_finished(),
            count,
            frame: self.player.frame_index(),
            records: number_of(&run),
        });
        run
    }
}

/// The records of a call as one number, made of place, target, address and value of each.
fn number_of(run: &[WriteRecord]) -> u32 {
    let values = run.iter().zip(0..).flat_map(|(record, place)| {
        let [target, value] = [record.target, record.value].map(u32::from);
        [place, target, record.address, value]
    });
    stored::mixed(values)
}

/// The stored form: for each script the file's length and the number of calls, the file, and 16 bytes for each call; then
/// [`stored::END`].
pub fn to_bytes(scripts: &[Script]) -> Vec<u8> {
    let mut bytes = Vec::new();
    for Script { file, calls } in scripts {
        stored::put(&mut bytes, &[file.len() as u32, calls.len() as u32]);
        bytes.extend(file);
        for call in calls {
            bytes.extend(call.to_bytes());
        }
    }
    stored::put(&mut bytes, &[stored::END]);
    bytes
}

impl Call {
    /// Numbers have their highest byte first, as all that is stored.
    fn to_bytes(&self) -> impl Iterator<Item = u8> {
        let flags = [self.refused, self.complete, self.finished].map(u8::from);
        let [refused, complete, finished] = flags;
        let asked = [self.length, self.room, self.change.place];
        let told = [self.count, self.frame as usize];
        let two = |number: usize| (number as u16).to_be_bytes();
        let front = asked.into_iter().flat_map(two);
        let between = [self.change.value, refused + 2 * complete + 4 * finished];
        let back = told.into_iter().flat_map(two);
        front
            .chain(between)
            .chain(back)
            .chain(self.records.to_be_bytes())
    }
}
