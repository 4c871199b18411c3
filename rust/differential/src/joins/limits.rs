//! Pairs at and beside the limits of two files together, which only long files reach: 29, 30 and 23. And, without chance, those with a
//! file for each of the refusals 1 to 20.

use super::definition::{HEADER, MOST_OPERATIONS};
use crate::examples::example;
use crate::model::{MAX_POOLS, MAX_SIZE, Operation, PCM, PCM_MEMORY, Pool, Stream};
use crate::rng::Rng;

/// What a long file has.
#[derive(Clone, Copy, Debug, PartialEq, Eq)]
struct Long {
    /// Operations of the opening.
    opening: usize,
    /// Operations of the first frame.
    frame: usize,
    /// PCM pools of one byte.
    pools: usize,
    /// Bytes of the file, which more pools make up; 0 for as many as there are.
    bytes: usize,
}

/// The shortest file: one empty frame.
const SHORT: Long = Long {
    opening: 0,
    frame: 0,
    pools: 0,
    bytes: 0,
};

const fn operations(opening: usize, frame: usize) -> Long {
    Long {
        opening,
        frame,
        ..SHORT
    }
}

const fn pools(pools: usize) -> Long {
    Long { pools, ..SHORT }
}

const fn bytes(bytes: usize) -> Long {
    Long { bytes, ..SHORT }
}

/// More than fits into one frame.
const TOO_MANY: usize = MOST_OPERATIONS + 1;

/// Half of the longest result.
const HALF: usize = MAX_SIZE / 2 + 20;

/// All that are made without chance.
const MADE: [[Long; 2]; 36] = [
    // As many operations as there may be in the frame that the second's opening goes to, and one more.
    [SHORT, operations(MOST_OPERATIONS, 0)],
    [SHORT, operations(TOO_MANY, 0)],
    [SHORT, operations(0, MOST_OPERATIONS)],
    [SHORT, operations(1, MOST_OPERATIONS)],
    [SHORT, operations(1, MOST_OPERATIONS - 1)],
    [SHORT, operations(MOST_OPERATIONS - 1, 1)],
    [SHORT, operations(MOST_OPERATIONS, 1)],
    [SHORT, operations(30_000, 35_535)],
    [SHORT, operations(30_000, 35_536)],
    [SHORT, operations(100_000, 0)],
    // The first file's opening goes to no frame.
    [operations(TOO_MANY, 0), SHORT],
    [
        operations(MOST_OPERATIONS, MOST_OPERATIONS),
        operations(1, 1),
    ],
    [operations(TOO_MANY, 1), operations(TOO_MANY, 1)],
    // Pools.
    [pools(MAX_POOLS), SHORT],
    [SHORT, pools(MAX_POOLS)],
    [pools(1), pools(MAX_POOLS - 1)],
    [pools(MAX_POOLS - 1), pools(1)],
    [pools(MAX_POOLS / 2), pools(MAX_POOLS / 2)],
    [pools(MAX_POOLS / 2), pools(MAX_POOLS / 2 + 1)],
    [pools(1), pools(MAX_POOLS)],
    [pools(MAX_POOLS), pools(1)],
    [pools(MAX_POOLS), pools(MAX_POOLS)],
    // Bytes.
    [bytes(MAX_SIZE - 2), SHORT],
    [bytes(MAX_SIZE - 1), SHORT],
    [bytes(MAX_SIZE), SHORT],
    [SHORT, bytes(MAX_SIZE - 2)],
    [SHORT, bytes(MAX_SIZE)],
    [bytes(HALF), bytes(HALF)],
    [bytes(HALF), bytes(HALF + 1)],
    [bytes(HALF + 1), bytes(HALF)],
    [bytes(MAX_SIZE), bytes(MAX_SIZE)],
    // Several of them.
    [pools(MAX_POOLS), with_operations(pools(1), TOO_MANY)],
    [bytes(MAX_SIZE), operations(TOO_MANY, 0)],
    [bytes(MAX_SIZE), pools(MAX_POOLS)],
    [pools(MAX_POOLS), bytes(MAX_SIZE)],
    [bytes(MAX_SIZE), with_operations(pools(MAX_POOLS), TOO_MANY)],
];

const fn with_operations(long: Long, opening: usize) -> Long {
    Long { opening, ..long }
}

/// Accepted examples of another version than 2, which come behind the refused ones.
const OTHER_VERSIONS: [&str; 4] = ["tune-1", "bank-3", "cards-4", "empty-1"];

/// How many pairs are made without chance.
pub const COUNT: usize = MADE.len() + 3 * (20 + OTHER_VERSIONS.len());

/// The pair of an index below [`COUNT`].
///
/// # Panics
/// If there is none.
pub fn made(index: usize) -> [Vec<u8>; 2] {
    let rng = &mut Rng::new(index as u64);
    if let Some(pair) = MADE.get(index) {
        return pair.map(|long| file(rng, long));
    }
    let index = index - MADE.len();
    let name = match (index / 3).checked_sub(20) {
        Some(other) => OTHER_VERSIONS[other].to_owned(),
        None => format!("refused-{}", index / 3 + 1),
    };
    let (refused, tune) = (example(&name), example("tune-2"));
    match index % 3 {
        0 => [refused, tune],
        1 => [tune, refused],
        _ => [refused, example("refused-16")],
    }
}

/// A pair at one of the limits, one below it or one above, drawn.
pub fn drawn(rng: &mut Rng) -> [Vec<u8>; 2] {
    let pair = match rng.below(16) {
        // None is so short that no pool makes up its bytes.
        0 => parts(rng, MAX_SIZE + HEADER, MAX_SIZE - 1_000).map(bytes),
        1..=3 => parts(rng, MAX_POOLS, MAX_POOLS).map(pools),
        _ => {
            let [opening, frame] = parts(rng, MOST_OPERATIONS, MOST_OPERATIONS);
            [[rng.index(5), rng.index(5)], [opening, frame]].map(|[opening, frame]| Long {
                opening,
                frame,
                pools: rng.index(4),
                bytes: 0,
            })
        }
    };
    pair.map(|long| file(rng, long))
}

/// Two numbers whose sum is the limit, one less or one more, and of which none is above `most`.
fn parts(rng: &mut Rng, limit: usize, most: usize) -> [usize; 2] {
    let both = limit + rng.index(3) - 1;
    let first = both.saturating_sub(most) + rng.index(2 * most.min(both) - both + 1);
    [first, both - first]
}

fn file(rng: &mut Rng, long: Long) -> Vec<u8> {
    let mut stream = Stream::empty_frame(2);
    stream.repeat = rng.one_in(2);
    stream.pools = (0..long.pools).map(|_| pool(rng, 1)).collect();
    stream.opening = (0..long.opening).map(|_| operation(rng, long)).collect();
    stream.frames[0] = (0..long.frame).map(|_| operation(rng, long)).collect();
    // A last frame with a COPY of the last pool.
    let copy = |pools: usize| vec![Operation::copy(PCM, 0, (pools - 1) as u16, 0, 1)];
    if long.pools > 0 || long.bytes > 0 {
        stream.frames.push(copy(1));
        fill(rng, &mut stream, long.bytes);
        stream.frames[1] = copy(stream.pools.len());
    }
    stream.to_bytes()
}

/// Pools up to a number of bytes, if that is 17 or more above what the file has.
fn fill(rng: &mut Rng, stream: &mut Stream, bytes: usize) {
    let longest = PCM_MEMORY as usize;
    while let rest @ 1.. = bytes.saturating_sub(stream.size()) {
        // Two pools of the rest are long enough, where one is too short for it.
        let payload = match rest - 16 {
            one if one <= longest => one,
            two if two <= 2 * longest => two / 2,
            _ => longest,
        };
        stream.pools.push(pool(rng, payload));
    }
}

fn pool(rng: &mut Rng, size: usize) -> Pool {
    let mut payload = vec![0; size];
    rng.fill(&mut payload);
    Pool { kind: 2, payload }
}

/// One write or two: a COPY from any of the pools, if there are any, a FILL or a WRITE.
fn operation(rng: &mut Rng, long: Long) -> Operation {
    match rng.below(8) {
        0 if long.pools > 0 => {
            let pool = rng.index(long.pools) as u16;
            Operation::copy(PCM, rng.below(PCM_MEMORY), pool, 0, 1)
        }
        1 => Operation::fill(PCM, rng.below(PCM_MEMORY - 1), 2, rng.byte()),
        _ => Operation::write(rng.below(2) as u8, rng.below(0x900), rng.byte()),
    }
}
