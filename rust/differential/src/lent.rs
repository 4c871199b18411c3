//! Calls of the library that write a result into lent memory: repacking, building an index, and joining.

use crate::stored;
use sgub::Refusal;
use std::fmt::Debug;

/// A call that is lent a file and a buffer, and gives the length of the result at the buffer's start.
pub type Call = fn(&[u8], &mut [u8]) -> Result<usize, Refusal>;

/// What a call came to, as it has to.
#[derive(Clone, Copy, Debug, PartialEq, Eq)]
pub enum Outcome {
    /// A result of so many bytes.
    Written(usize),
    /// The first refusal that applies.
    Refused(Refusal),
}

/// What stands in a lent buffer before the call.
const BEFORE: u8 = 0xA5;

/// The refusal of a buffer that is too short.
const TOO_SHORT: Refusal = Refusal {
    number: 24,
    place: 0,
};

/// Lends so much room, of which all bytes are known.
fn lent(buffer: &mut Vec<u8>, room: usize) -> &mut [u8] {
    buffer.clear();
    buffer.resize(room, BEFORE);
    buffer
}

/// Holds a call to a result: into room of its size and into more, of which the bytes beyond stay; and 24 for a byte less. The
/// memory of `buffer` is used again.
///
/// # Errors
/// What the library does otherwise.
pub fn written(
    call: Call,
    file: &[u8],
    result: &[u8],
    buffer: &mut Vec<u8>,
) -> Result<Outcome, String> {
    hold_result(|lent| call(file, lent), result, TOO_SHORT, buffer)?;
    Ok(Outcome::Written(result.len()))
}

/// Holds a call to a refusal, whatever the room.
///
/// # Errors
/// What the library does otherwise.
pub fn refused(
    call: Call,
    file: &[u8],
    refusal: Refusal,
    buffer: &mut Vec<u8>,
) -> Result<Outcome, String> {
    hold_refusal(|lent| call(file, lent), refusal, &[0, 100], buffer)?;
    Ok(Outcome::Refused(refusal))
}

/// Holds a call that is lent a buffer to a result, as [`written`] does, and to this refusal of a buffer that is too short.
///
/// # Errors
/// What the library does otherwise.
pub fn hold_result<E: Debug + PartialEq>(
    call: impl Fn(&mut [u8]) -> Result<usize, E>,
    result: &[u8],
    too_short: E,
    buffer: &mut Vec<u8>,
) -> Result<(), String> {
    let size = result.len();
    for room in [size, size + 1 + size % 61] {
        let lent = lent(buffer, room);
        let answer = call(lent);
        let (front, behind) = lent.split_at(size);
        if answer != Ok(size) {
            return Err(format!("library {answer:?}, expected {size} bytes"));
        }
        if let Some(at) = (0..size).find(|at| front[*at] != result[*at]) {
            let bytes = (front[at], result[at]);
            return Err(format!("byte {at} of {size}: library, expected {bytes:?}"));
        }
        if behind.iter().any(|byte| *byte != BEFORE) {
            return Err(format!("bytes behind the result's {size} are written"));
        }
    }
    hold_refusal(call, too_short, &[size - 1], buffer)
}

/// Holds a call that is lent a buffer of each of these sizes to a refusal, with nothing written.
///
/// # Errors
/// What the library does otherwise.
pub fn hold_refusal<E: Debug + PartialEq>(
    call: impl Fn(&mut [u8]) -> Result<usize, E>,
    refusal: E,
    rooms: &[usize],
    buffer: &mut Vec<u8>,
) -> Result<(), String> {
    let expected = Err(refusal);
    for room in rooms {
        let lent = lent(buffer, *room);
        let answer = call(lent);
        if answer != expected {
            return Err(format!("library {answer:?}, expected {expected:?}"));
        }
        if lent.iter().any(|byte| *byte != BEFORE) {
            return Err(format!("{expected:?}, and the buffer is written"));
        }
    }
    Ok(())
}

/// The longest file and the longest room that are stored.
pub const LONGEST: usize = 65_536;

/// A file, the room that is lent, and the answer, for programs that have no generators.
#[derive(Clone, Debug, PartialEq, Eq)]
pub struct Vector {
    /// The file.
    pub file: Vec<u8>,
    /// Bytes of the lent buffer.
    pub room: usize,
    /// The refusal's number and place; 0 and 0 for a result.
    pub refusal: [u32; 2],
    /// The result; empty for a refusal.
    pub result: Vec<u8>,
}

impl Vector {
    /// A file with the room of its result, less so many bytes; a file that is refused with room for a hundred.
    ///
    /// # Panics
    /// If file or room are too long to be stored.
    pub fn new(
        file: &[u8],
        outcome: Outcome,
        less: isize,
        result: impl FnOnce() -> Vec<u8>,
    ) -> Self {
        let mut vector = Self {
            file: file.to_vec(),
            room: 100,
            refusal: [0, 0],
            result: Vec::new(),
        };
        match outcome {
            Outcome::Written(size) => {
                vector.room = size.saturating_add_signed(-less);
                if less > 0 {
                    vector.refusal = [24, 0];
                } else {
                    vector.result = result();
                }
            }
            Outcome::Refused(refusal) => vector.refusal = [refusal.number, refusal.place as u32],
        }
        assert!(file.len() <= LONGEST && vector.room <= LONGEST);
        vector
    }
}

/// The stored form: for each vector the file's length, the file, room, number, place, the result's length and the result, then
/// [`stored::END`].
pub fn to_bytes(vectors: &[Vector]) -> Vec<u8> {
    let mut bytes = Vec::new();
    for vector in vectors {
        let [number, place] = vector.refusal;
        let [length, room, size] =
            [vector.file.len(), vector.room, vector.result.len()].map(|number| number as u32);
        stored::put(&mut bytes, &[length]);
        bytes.extend(&vector.file);
        stored::put(&mut bytes, &[room, number, place, size]);
        bytes.extend(&vector.result);
    }
    stored::put(&mut bytes, &[stored::END]);
    bytes
}
