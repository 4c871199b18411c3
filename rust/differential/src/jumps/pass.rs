//! What an accepted file plays, read by the format sheet and held against the original: the writes of the opening, of each frame and
//! of the end, all targets in one order, which the original does not keep.

use crate::model::fields::number;
use crate::model::writer::{OPERATION_SIZES, RECORD_SIZE};
use crate::model::{PCM, SI22};
use crate::oracle::{self, Vsync};
use sgub::WriteRecord;

/// The wave sources of core 0 and of core 1, by channel.
pub type Waves = [Option<u16>; 16];

/// An accepted file.
#[derive(Clone, Debug, PartialEq, Eq)]
pub struct Pass {
    /// The bytes of header and cards: all that a start records but the use of target 11.
    pub head: Vec<u8>,
    /// Whether an operation has target 11.
    pub uses_si22: bool,
    /// The place of each frame's count.
    pub places: Vec<usize>,
    /// What the first vsync plays before frame 1.
    pub opening: Part,
    /// The frames.
    pub frames: Vec<Part>,
    /// What comes behind the last frame, if the file does not repeat.
    pub closing: Part,
}

/// The writes of an opening, of a frame or of the end.
#[derive(Clone, Debug, Default, PartialEq, Eq)]
pub struct Part {
    /// The writes.
    pub writes: Vec<WriteRecord>,
    /// The wave sources that they set: by which of the writes, whose, and the pool.
    pub waves: Vec<(usize, usize, u16)>,
}

impl Pass {
    /// Reads a file, which is accepted.
    ///
    /// # Panics
    /// Possibly, if it is not.
    pub fn read(file: &[u8]) -> Self {
        let version = file[4];
        let field = |at: usize| number(&file[at..at + 4]) as usize;
        let (head, opening, start) = match version {
            1 => (20, field(12), 20),
            4 => (48 + 32 * usize::from(file[38]), field(16), field(24)),
            _ => (40, field(16), field(24)),
        };
        let mut reader = Reader {
            file,
            version,
            directory: head,
            at: start,
            uses_si22: false,
        };
        let opening = reader.part(opening);
        let mut places = Vec::new();
        let frames = (0..field(8)).map(|_| {
            places.push(reader.at);
            reader.frame()
        });
        let frames = frames.collect();
        Self {
            head: file[..head].to_vec(),
            uses_si22: reader.uses_si22,
            places,
            opening,
            frames,
            closing: closing(reader.uses_si22),
        }
    }

    /// Whether frame 1 follows the last frame.
    pub fn repeats(&self) -> bool {
        self.head[6] == 1
    }

    /// Holds the pass against the original: the writes of each vsync, the wave sources behind it, and where its reader stands; then
    /// the end, or frame 1 without the opening. A vsync's core and PCM writes are one sequence, and its device writes another.
    ///
    /// # Errors
    /// What the original plays otherwise.
    pub fn hold(&self, file: &[u8]) -> Result<(), String> {
        let mut original = oracle::Player::new(file)?;
        let mut theirs = Vsync::default();
        let mut waves = Waves::default();
        let frames = self.frames.iter().zip(&self.places);
        for (number, (frame, place)) in (1..).zip(frames) {
            if original.cursor() != *place {
                let theirs = original.cursor();
                return Err(format!("frame {number}: place {place}, original {theirs}"));
            }
            original.advance_vsync(&mut theirs);
            let parts = match number {
                1 => vec![&self.opening, frame],
                _ => vec![frame],
            };
            for (_, whose, pool) in parts.iter().flat_map(|part| &part.waves) {
                waves[*whose] = Some(*pool);
            }
            same(&parts, &theirs).map_err(|text| format!("frame {number}: {text}"))?;
            let sources = original.wave_sources();
            if !waves.iter().eq(sources.iter().flatten()) {
                return Err(format!("frame {number}: wave sources {sources:?}"));
            }
        }
        original.advance_vsync(&mut theirs);
        let behind = match self.repeats() {
            true => &self.frames[0],
            false => &self.closing,
        };
        same(&[behind], &theirs).map_err(|text| format!("behind the last frame: {text}"))
    }
}

/// Holds the writes of a vsync against the original's.
fn same(parts: &[&Part], theirs: &Vsync) -> Result<(), String> {
    let writes = parts.iter().flat_map(|part| &part.writes);
    let writes = writes.map(|write| (write.target, write.address, write.value));
    let (devices, cores): (Vec<_>, Vec<_>) = writes.partition(|write| write.0 > PCM);
    match cores == theirs.writes && devices == theirs.device_writes {
        true => Ok(()),
        false => Err(String::from("the original has other writes")),
    }
}

/// The closing writes.
fn closing(uses_si22: bool) -> Part {
    let write = |(target, address)| WriteRecord {
        target,
        address,
        value: 0,
    };
    let device = uses_si22.then_some((SI22, 0x0C));
    let registers = (0..2).flat_map(|core| {
        (0..8).flat_map(move |channel| [3, 0x19].map(|at| (core, 0x800 + 32 * channel + at)))
    });
    Part {
        writes: device.into_iter().chain(registers).map(write).collect(),
        waves: Vec::new(),
    }
}

/// Reads the items of a file one by one.
struct Reader<'a> {
    file: &'a [u8],
    version: u8,
    directory: usize,
    at: usize,
    uses_si22: bool,
}

impl Reader<'_> {
    /// The number of so many bytes at a place.
    fn number(&self, at: usize, width: usize) -> u32 {
        number(&self.file[at..at + width])
    }

    fn frame(&mut self) -> Part {
        let count = self.number(self.at, 2);
        self.at += 2;
        self.part(count as usize)
    }

    /// So many items.
    fn part(&mut self, count: usize) -> Part {
        let mut part = Part::default();
        for _ in 0..count {
            if self.version == 1 {
                self.record(&mut part);
            } else {
                self.operation(&mut part);
            }
        }
        part
    }

    fn record(&mut self, part: &mut Part) {
        let target = self.file[self.at];
        let address = self.number(self.at + 1, 3);
        let value = self.file[self.at + 4];
        upward(part, target, address, [value]);
        self.at += RECORD_SIZE;
    }

    fn operation(&mut self, part: &mut Part) {
        let (opcode, target) = (self.file[self.at], self.file[self.at + 1]);
        let wide = usize::from(self.version > 2);
        let address = self.number(self.at + 2, 3 + wide);
        let data = self.at + 5 + wide;
        self.uses_si22 |= target == SI22;
        match opcode {
            0 => upward(part, target, address, [self.file[data]]),
            1 => {
                let length = self.number(data, 4) as usize;
                let values = std::iter::repeat_n(self.file[data + 4], length);
                upward(part, target, address, values);
            }
            _ => self.copy(part, target, address, data),
        }
        self.at += OPERATION_SIZES[wide][usize::from(opcode)];
    }

    /// A COPY, whose pool, source and length stand at `data`.
    fn copy(&self, part: &mut Part, target: u8, address: u32, data: usize) {
        let pool = self.number(data, 2);
        let entry = self.directory + 16 * pool as usize;
        if self.file[entry + 2] == 1 {
            let whose = 8 * usize::from(target) + address as usize / 256;
            part.waves.push((part.writes.len(), whose, pool as u16));
        }
        let [source, length] = [data + 2, data + 6].map(|at| self.number(at, 4) as usize);
        let from = self.number(entry + 12, 4) as usize + source;
        let values = self.file[from..from + length].iter().copied();
        upward(part, target, address, values);
    }
}

/// Writes values to a target from an address on.
fn upward(part: &mut Part, target: u8, address: u32, values: impl IntoIterator<Item = u8>) {
    let writes = (address..).zip(values);
    part.writes
        .extend(writes.map(|(address, value)| WriteRecord {
            target,
            address,
            value,
        }));
}
