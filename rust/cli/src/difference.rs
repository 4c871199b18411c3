//! Where two files differ that the comparison told apart.

use sgub::{Header, IMAGE_SIZE, PoolEntry, WriteRecord, check, pools};
use std::fmt;

/// The first difference between a master and a file of version 2, in the order in which the format sheet's rule names what
/// has to agree. Of a pair the master's comes first. Frames, writes and so on are numbered from 1.
#[derive(Clone, Copy, Debug, PartialEq, Eq)]
pub enum Difference {
    /// One repeats, and the other does not.
    Repeat([bool; 2]),
    /// The frame counts.
    FrameCount([u32; 2]),
    /// A write to the cores in the opening. The writes to both cores are one sequence; `None` is behind the end of one.
    Opening {
        /// The number of the write among those to the cores.
        write: u64,
        /// The writes.
        writes: [Option<WriteRecord>; 2],
    },
    /// A byte of PCM memory after the opening.
    Pcm {
        /// Its address.
        address: usize,
        /// The bytes.
        values: [u8; 2],
    },
    /// A write of a frame; `None` is behind the end of one.
    Frame {
        /// The number of the frame.
        frame: u32,
        /// The number of the write in it.
        write: u64,
        /// The writes.
        writes: [Option<WriteRecord>; 2],
    },
}

/// The first difference between a master and a file of version 2, with the images that [`sgub::compare`] left.
///
/// Where the comparison failed there is one, and where it passed there is none; there is none either between other files.
/// The two are read side by side up to the difference, so the time goes by the length of the files, however many writes the
/// other file's operations stand for.
pub fn first_difference(
    master: &[u8],
    other: &[u8],
    master_image: &[u8],
    other_image: &[u8],
) -> Option<Difference> {
    let files = [Accepted::new(master, 1)?, Accepted::new(other, 2)?];
    let [ours, theirs] = files.each_ref().map(|file| &file.header);
    if ours.repeats != theirs.repeats {
        return Some(Difference::Repeat([ours.repeats, theirs.repeats]));
    }
    if ours.frame_count != theirs.frame_count {
        let counts = [ours.frame_count, theirs.frame_count];
        return Some(Difference::FrameCount(counts));
    }
    in_opening(&files)
        .or_else(|| in_pcm(master_image, other_image))
        .or_else(|| in_frames(&files))
}

/// An accepted file of one version, with what the library tells of it.
struct Accepted<'a> {
    bytes: &'a [u8],
    header: Header,
    pools: Vec<PoolEntry>,
}

impl<'a> Accepted<'a> {
    fn new(bytes: &'a [u8], version: u8) -> Option<Self> {
        match check(bytes) {
            Ok(header) if header.version == version => Some(Self {
                bytes,
                header,
                pools: pools(bytes).ok()?,
            }),
            _ => None,
        }
    }
}

fn in_opening(files: &[Accepted; 2]) -> Option<Difference> {
    let mut openings = files.each_ref().map(|file| Writes {
        cores_only: true,
        ..Writes::new(
            file,
            file.header.initial_start as usize,
            file.header.initial_count,
        )
    });
    let (write, writes) = first(&mut openings)?;
    Some(Difference::Opening { write, writes })
}

fn in_pcm(master: &[u8], other: &[u8]) -> Option<Difference> {
    // Bytes behind an image are not of it.
    let [master, other] = [master, other].map(|image| &image[..image.len().min(IMAGE_SIZE)]);
    // Most images agree, and this is much quicker than a search.
    if master == other {
        return None;
    }
    let address = master.iter().zip(other).position(|(a, b)| a != b)?;
    let values = [master[address], other[address]];
    Some(Difference::Pcm { address, values })
}

fn in_frames(files: &[Accepted; 2]) -> Option<Difference> {
    let mut places = files
        .each_ref()
        .map(|file| file.header.frame_start as usize);
    for frame in 1..=files[0].header.frame_count {
        let mut frames = std::array::from_fn(|index| {
            let (file, at) = (&files[index], places[index]);
            let count = number(&file.bytes[at..at + 2]);
            Writes::new(file, at + 2, count)
        });
        if let Some((write, writes)) = first(&mut frames) {
            return Some(Difference::Frame {
                frame,
                write,
                writes,
            });
        }
        // Both were read to their ends.
        places = frames.map(|frame| frame.at);
    }
    None
}

/// The number of the first write that is not the same in both, and the writes.
fn first(both: &mut [Writes; 2]) -> Option<(u64, [Option<WriteRecord>; 2])> {
    for number in 1.. {
        match both.each_mut().map(Writes::next) {
            [None, None] => break,
            [ours, theirs] if ours == theirs => {}
            writes => return Some((number, writes)),
        }
    }
    None
}

/// The bytes of a WRITE, a FILL and a COPY of version 2, and of a record of version 1, which is a WRITE without its opcode.
const SIZES: [usize; 3] = [6, 10, 15];
const RECORD_SIZE: usize = 5;

/// The writes of records or operations of an accepted file of version 1 or 2.
struct Writes<'a> {
    file: &'a Accepted<'a>,
    cores_only: bool,
    /// Where the next record or operation starts, and how many are left.
    at: usize,
    left: u32,
    /// The next write of the operation before it, how many are left, and where its value stands.
    write: WriteRecord,
    writes: u32,
    source: usize,
    step: usize,
}

impl<'a> Writes<'a> {
    fn new(file: &'a Accepted<'a>, at: usize, left: u32) -> Self {
        Self {
            file,
            cores_only: false,
            at,
            left,
            write: WriteRecord::default(),
            writes: 0,
            source: 0,
            step: 0,
        }
    }

    /// Takes the next record or operation, field by field in the format sheet's order. The library's own reader of them is its crate
    /// `bytes_operation`; no entry point exports it, because it reads without the rules.
    fn take_operation(&mut self) {
        let (file, mut place) = (self.file, self.at);
        let mut take = |width: usize| {
            place += width;
            number(&file.bytes[place - width..place])
        };
        let (opcode, size) = match file.header.version {
            1 => (0, RECORD_SIZE),
            _ => {
                let opcode = take(1) as usize;
                (opcode, SIZES[opcode])
            }
        };
        self.write.target = take(1) as u8;
        self.write.address = take(3);
        self.at += size;
        self.left -= 1;
        // The value of a WRITE or a FILL is its last byte.
        (self.writes, self.source, self.step) = match opcode {
            0 => (1, self.at - 1, 0),
            1 => (take(4), self.at - 1, 0),
            _ => {
                let pool = file.pools[take(2) as usize];
                let source = pool.offset as usize + take(4) as usize;
                (take(4), source, 1)
            }
        };
        if self.cores_only && self.write.target > 1 {
            self.writes = 0;
        }
    }
}

impl Iterator for Writes<'_> {
    type Item = WriteRecord;

    fn next(&mut self) -> Option<WriteRecord> {
        while self.writes == 0 {
            if self.left == 0 {
                return None;
            }
            self.take_operation();
        }
        let value = self.file.bytes[self.source];
        let write = WriteRecord {
            value,
            ..self.write
        };
        self.writes -= 1;
        self.write.address += 1;
        self.source += self.step;
        Some(write)
    }
}

/// A number of up to four bytes, highest byte first.
fn number(bytes: &[u8]) -> u32 {
    bytes
        .iter()
        .fold(0, |number, byte| number << 8 | u32::from(*byte))
}

impl fmt::Display for Difference {
    /// The difference in words. A write is target, address and value.
    fn fmt(&self, f: &mut fmt::Formatter<'_>) -> fmt::Result {
        match *self {
            Self::Repeat([true, _]) => {
                f.write_str("repeat: the master repeats, the other does not")
            }
            Self::Repeat([false, _]) => {
                f.write_str("repeat: the other repeats, the master does not")
            }
            Self::FrameCount([master, other]) => {
                write!(f, "frame count: master {master}, other {other}")
            }
            Self::Opening { write, writes } => {
                write!(f, "opening, core write {write}: {}", Words(writes))
            }
            Self::Pcm {
                address,
                values: [master, other],
            } => write!(
                f,
                "PCM memory after the opening, address {address}: master {master}, other {other}"
            ),
            Self::Frame {
                frame,
                write,
                writes,
            } => write!(f, "frame {frame}, write {write}: {}", Words(writes)),
        }
    }
}

/// What each file has in one place.
struct Words([Option<WriteRecord>; 2]);

impl fmt::Display for Words {
    fn fmt(&self, f: &mut fmt::Formatter<'_>) -> fmt::Result {
        for (name, write) in ["master", ", other"].into_iter().zip(self.0) {
            match write {
                Some(write) => {
                    let WriteRecord {
                        target,
                        address,
                        value,
                    } = write;
                    write!(f, "{name} {target} {address} {value}")?;
                }
                None => write!(f, "{name} none")?,
            }
        }
        Ok(())
    }
}
