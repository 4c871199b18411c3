//! The stream of an accepted file of version 2, read by the sheet's layouts. [`writer`](super::writer) writes the same bytes again.

use super::fields::number;
use super::writer::OPERATION_SIZES;
use super::{Operation, Pool, Stream};

/// Bytes of the header, and of an entry of the directory.
const HEADER: usize = 40;
const ENTRY: usize = 16;

impl Stream {
    /// Reads an accepted file of version 2.
    ///
    /// # Panics
    /// Possibly, if it is not.
    pub fn read_version_2(file: &[u8]) -> Self {
        assert_eq!(file[4], 2, "the file is of version 2");
        let field = |at: usize| number(&file[at..at + 4]) as usize;
        let [frames, pools, opening, start] = [8, 12, 16, 24].map(field);
        let mut reader = Reader { file, at: start };
        Self {
            version: 2,
            repeat: file[6] == 1,
            pools: (0..pools).map(|id| pool(file, id)).collect(),
            opening: reader.operations(opening),
            frames: (0..frames).map(|_| reader.frame()).collect(),
            ..Self::default()
        }
    }
}

fn pool(file: &[u8], id: usize) -> Pool {
    let entry = &file[HEADER + ENTRY * id..][..ENTRY];
    let [size, offset] = [4, 12].map(|at| number(&entry[at..at + 4]) as usize);
    Pool {
        kind: entry[2],
        payload: file[offset..offset + size].to_vec(),
    }
}

/// Reads the operations of a file one by one.
struct Reader<'a> {
    file: &'a [u8],
    at: usize,
}

impl Reader<'_> {
    fn frame(&mut self) -> Vec<Operation> {
        let count = number(&self.file[self.at..self.at + 2]);
        self.at += 2;
        self.operations(count as usize)
    }

    fn operations(&mut self, count: usize) -> Vec<Operation> {
        (0..count).map(|_| self.operation()).collect()
    }

    fn operation(&mut self) -> Operation {
        let opcode = usize::from(self.file[self.at]);
        let bytes = &self.file[self.at..][..OPERATION_SIZES[0][opcode]];
        self.at += bytes.len();
        let field = |at: usize, width: usize| number(&bytes[at..at + width]);
        let (target, address) = (bytes[1], field(2, 3));
        match opcode {
            0 => Operation::write(target, address, bytes[5]),
            1 => Operation::fill(target, address, field(5, 4), bytes[9]),
            _ => {
                let pool = field(5, 2) as u16;
                Operation::copy(target, address, pool, field(7, 4), field(11, 4))
            }
        }
    }
}
