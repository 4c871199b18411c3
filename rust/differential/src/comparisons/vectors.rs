//! Pairs of files with their comparisons, stored for programs that have no generators.

use super::pairs::Pairs;
use super::{BEHIND, Comparisons, Outcome};
use crate::model::{Operation, PCM, Pool, Stream};
use crate::{examples, sheet, stored};
use sgub::{IMAGE_SIZE, RefusedFile, Side};

/// The longest file of a drawn pair.
const LONGEST: usize = 2048;

/// Bytes of each lent memory: an image and some bytes behind it.
const LENT: usize = IMAGE_SIZE + BEHIND;

/// A pair, the rooms that are lent, and the answer, on which library and original agree.
#[derive(Clone, Debug, PartialEq, Eq)]
pub struct Vector {
    /// The files.
    pub files: [Vec<u8>; 2],
    /// Bytes of the lent images.
    pub rooms: [usize; 2],
    /// The file that is refused: 0 none, 1 the master, 2 the other.
    pub file: u32,
    /// The refusal's number and place.
    pub refusal: [u32; 2],
    /// Whether the comparison passed.
    pub passed: bool,
    /// The numbers that stand for the two lent memories after it.
    pub memories: [u32; 2],
}

/// So many vectors of a seed, the chosen pairs first, then pairs of each kind in turn.
///
/// # Errors
/// Where library and original differ.
pub fn choose(count: usize, seed: u64) -> Result<Vec<Vector>, String> {
    let mut maker = Maker {
        comparisons: Comparisons::new(seed),
        memories: [(); 2].map(|()| vec![0; LENT]),
        vectors: Vec::with_capacity(count),
    };
    for pair in chosen() {
        for rooms in [
            [IMAGE_SIZE, LENT],
            [LENT, IMAGE_SIZE - 1],
            [IMAGE_SIZE - 1, IMAGE_SIZE - 1],
        ] {
            maker.push(pair.clone(), rooms)?;
        }
    }
    let mut pairs = Pairs::new(seed);
    while maker.vectors.len() < count {
        let (_, pair) = pairs.next_pair();
        if pair.iter().all(|file| file.len() <= LONGEST) {
            let rooms = match maker.vectors.len() % 16 {
                0 => [LENT, 0],
                8 => [0, LENT],
                _ => [LENT, IMAGE_SIZE],
            };
            maker.push(pair, rooms)?;
        }
    }
    Ok(maker.vectors)
}

struct Maker {
    comparisons: Comparisons,
    /// What the program's lent memories hold: it fills them with 0 once, and each comparison finds what the one before left.
    memories: [Vec<u8>; 2],
    vectors: Vec<Vector>,
}

impl Maker {
    fn push(&mut self, files: [Vec<u8>; 2], rooms: [usize; 2]) -> Result<(), String> {
        let lent = files.each_ref().map(Vec::as_slice);
        let outcome = self.comparisons.compare(lent, [0, 0])?;
        let short = rooms.iter().position(|room| *room < IMAGE_SIZE);
        let (file, refusal, passed) = match (outcome, short) {
            (Outcome::TooLong, _) => return Ok(()),
            (Outcome::Refused(RefusedFile { side, refusal }), _) => {
                let file = if side == Side::Master { 1 } else { 2 };
                (file, [refusal.number, refusal.place as u32], false)
            }
            (_, Some(side)) => (side as u32 + 1, [24, 0], false),
            (outcome, None) => (0, [0, 0], outcome == Outcome::Passed),
        };
        if file == 0 {
            for (memory, image) in self.memories.iter_mut().zip(self.comparisons.images()) {
                memory[..IMAGE_SIZE].copy_from_slice(image);
            }
        }
        self.vectors.push(Vector {
            files,
            rooms,
            file,
            refusal,
            passed,
            memories: self.memories.each_ref().map(|memory| mixed(memory)),
        });
        Ok(())
    }
}

/// The number that stands for lent memory.
fn mixed(memory: &[u8]) -> u32 {
    stored::mixed(memory.iter().copied().map(u32::from))
}

/// The examples of the repository that stand beside each other in the pairs.
const EXAMPLES: [&str; 12] = [
    "empty-1",
    "empty-2",
    "empty-4",
    "tune-1",
    "tune-2",
    "bank-3",
    "cards-4",
    "refused-6",
    "refused-7",
    "refused-14",
    "refused-16",
    "refused-19",
];

/// The sheet's and the repository's examples beside each other, and pairs that have all of PCM memory in the other file.
fn chosen() -> Vec<[Vec<u8>; 2]> {
    let rows = sheet::rows().into_iter().map(|row| row.file);
    let files: Vec<Vec<u8>> = EXAMPLES
        .into_iter()
        .map(examples::example)
        .filter(|file| file.len() <= LONGEST)
        .chain(rows)
        .collect();
    let masters = files.iter().filter(|file| file.get(4) == Some(&1));
    let mut pairs = Vec::new();
    for master in masters {
        pairs.push([master.clone(), master.clone()]);
        pairs.extend(sgub::repack_to_vec(master).map(|other| [master.clone(), other]));
    }
    for other in files.iter().filter(|file| file.get(4) == Some(&2)) {
        pairs.push([files[0].clone(), other.clone()]);
    }
    let empty = Stream::empty_frame(1).to_bytes();
    // The last byte of PCM memory, alone, in a long FILL, and in a COPY.
    for operation in [
        Operation::write(PCM, 0xF_FFFF, 0x81),
        Operation::fill(PCM, 0xF_FFF0, 16, 0x80),
        Operation::fill(PCM, 0xF_0000, 0x1_0000, 0x81),
        Operation::copy(PCM, 0xF_FFFE, 0, 1, 2),
    ] {
        let mut other = Stream::empty_frame(2);
        other.pools.push(Pool {
            kind: 2,
            payload: vec![1, 0x80, 0x7F, 4],
        });
        other.opening.push(operation);
        pairs.push([empty.clone(), other.to_bytes()]);
    }
    pairs
}

/// The stored form: for each vector the lengths of the files, the files, then the rooms, the file that is refused, number,
/// place, 1 for passed or 0, and the numbers of the memories; then [`stored::END`].
pub fn to_bytes(vectors: &[Vector]) -> Vec<u8> {
    let mut bytes = Vec::new();
    for vector in vectors {
        let lengths = vector.files.each_ref().map(|file| file.len() as u32);
        let rooms = vector.rooms.map(|room| room as u32);
        stored::put(&mut bytes, &lengths);
        bytes.extend(vector.files.iter().flatten());
        stored::put(&mut bytes, &rooms);
        stored::put(&mut bytes, &[vector.file]);
        stored::put(&mut bytes, &vector.refusal);
        stored::put(&mut bytes, &[u32::from(vector.passed)]);
        stored::put(&mut bytes, &vector.memories);
    }
    stored::put(&mut bytes, &[stored::END]);
    bytes
}
