//! Joining over values, from document 02 and without the library.

use crate::model::{MAX_POOLS, MAX_SIZE, Operation, Stream};

/// The most operations of a frame.
pub const MOST_OPERATIONS: usize = 65_535;

/// The bytes of a header of version 2, of which a joined file has one less than its two pieces.
pub const HEADER: usize = 40;

/// The bytes of a joined file: both sizes less 40.
pub fn size(sizes: [usize; 2]) -> usize {
    sizes[0] + sizes[1] - HEADER
}

/// All numbers that apply to two files of version 2 together, the one that is given first; 24, which is about the room, aside.
pub fn numbers(first: &Stream, second: &Stream) -> Vec<u32> {
    let operations = second.opening.len() + second.frames[0].len();
    let pools = first.pools.len() + second.pools.len();
    let size = size([first.size(), second.size()]);
    let rules = [
        (29, operations > MOST_OPERATIONS),
        (30, pools > MAX_POOLS),
        (23, size > MAX_SIZE),
    ];
    let broken = rules.into_iter().filter(|(_, is_broken)| *is_broken);
    broken.map(|(number, _)| number).collect()
}

/// The two files as one, where none of [`numbers`] applies.
///
/// # Panics
/// If 30 applies to them and a COPY's pool has no number.
pub fn joined(first: Stream, second: Stream) -> Stream {
    let more = first.pools.len();
    let mut joined = first;
    joined.repeat = second.repeat;
    joined.pools.extend(second.pools);
    let mut frames = second.frames.into_iter();
    let own = frames.next().expect("a file has a frame");
    let opened = [second.opening, own].concat();
    let frames = std::iter::once(opened).chain(frames);
    joined
        .frames
        .extend(frames.map(|frame| renumbered(frame, more)));
    joined
}

/// The operations with COPYs from pools that have so many others before them.
fn renumbered(mut operations: Vec<Operation>, more: usize) -> Vec<Operation> {
    for operation in &mut operations {
        if let Operation::Copy { pool, .. } = operation {
            let number = usize::from(*pool) + more;
            *pool = u16::try_from(number).expect("there are 65,536 pools at most");
        }
    }
    operations
}

#[cfg(test)]
mod tests {
    use super::*;
    use crate::model::{PCM, Pool};

    /// Pieces with a pool, a COPY of it in opening and frames, and values that tell their writes apart.
    fn piece(value: u8) -> Stream {
        let write = Operation::write(0, 0x803, value);
        let copy = Operation::copy(PCM, 0, 0, 0, 1);
        Stream {
            repeat: value == 1,
            pools: vec![Pool {
                kind: 2,
                payload: vec![value],
            }],
            opening: vec![write, copy],
            frames: vec![vec![copy], vec![write]],
            ..Stream::empty_frame(2)
        }
    }

    #[test]
    fn two_pieces_are_one() {
        let [one, two] = [1, 2].map(|value| Operation::write(0, 0x803, value));
        let copy = |pool| Operation::copy(PCM, 0, pool, 0, 1);
        let expected = Stream {
            repeat: false,
            pools: [piece(1).pools, piece(2).pools].concat(),
            opening: vec![one, copy(0)],
            frames: vec![
                vec![copy(0)],
                vec![one],
                vec![two, copy(1), copy(1)],
                vec![two],
            ],
            ..Stream::empty_frame(2)
        };
        assert_eq!(joined(piece(1), piece(2)), expected);
        assert!(joined(piece(2), piece(1)).repeat);
        assert_eq!(numbers(&piece(1), &piece(2)), []);
    }

    #[test]
    fn numbers_come_in_their_order() {
        let write = Operation::write(0, 0, 0);
        let pool = Pool {
            kind: 2,
            payload: vec![0],
        };
        let many = Stream {
            pools: vec![pool; MAX_POOLS],
            opening: vec![write; MOST_OPERATIONS + 1],
            ..Stream::empty_frame(2)
        };
        let long = Stream {
            frames: vec![Vec::new(); (MAX_SIZE - 40) / 2],
            ..Stream::empty_frame(2)
        };
        assert_eq!(numbers(&many, &many), [29, 30]);
        assert_eq!(numbers(&many, &long), [23]);
        assert_eq!(numbers(&long, &many), [29, 23]);
    }
}
