//! Files with their answers, stored for programs that have no generators.
//!
//! Half of the files have something at or beside a limit of the sheet. Within each half the verdicts (accepted by version,
//! refused by number) come in turn, so that each occurs about equally often.

use super::verdict;
use crate::generators::{Choice, Family, Generator};
use crate::sheet::{self, Answer};
use crate::stored;
use std::collections::{BTreeMap, HashSet, VecDeque};

/// The longest file that is stored.
pub const LONGEST: usize = 4096;

/// A file with its answer.
#[derive(Clone, Debug, PartialEq, Eq)]
pub struct Vector {
    /// The file.
    pub file: Vec<u8>,
    /// The answer of the library, which the original's message or verdict allows.
    pub answer: Answer,
}

/// Files drawn for each file that is stored: the seldom verdicts need some.
const DRAWN: usize = 400;

/// So many vectors of a seed, the sheet's examples first.
///
/// # Errors
/// Where the library differs from the original or from the sheet's answer to an example.
pub fn choose(count: usize, seed: u64) -> Result<Vec<Vector>, String> {
    let mut vectors = Vec::with_capacity(count);
    let mut known = HashSet::new();
    for row in sheet::rows() {
        let answer = answer(&row.file)?;
        if answer != row.answer {
            return Err(format!("{}: {answer:?}, sheet {:?}", row.name, row.answer));
        }
        known.insert(row.file.clone());
        let file = row.file;
        vectors.push(Vector { file, answer });
    }
    for (end, choice) in [
        (count / 2, Choice::of(Family::Boundary)),
        (count, Choice::ANY),
    ] {
        let mut candidates = draw(DRAWN * count, seed, choice, &mut known)?;
        while vectors.len() < end && !candidates.is_empty() {
            for queue in candidates.values_mut() {
                if vectors.len() < end {
                    vectors.extend(queue.pop_front());
                }
            }
            candidates.retain(|_, queue| !queue.is_empty());
        }
    }
    Ok(vectors)
}

/// Files by verdict: the refusal's number, or the version of an accepted file.
type Candidates = BTreeMap<(u32, u32), VecDeque<Vector>>;

/// Draws files that are not known yet.
fn draw(
    count: usize,
    seed: u64,
    choice: Choice,
    known: &mut HashSet<Vec<u8>>,
) -> Result<Candidates, String> {
    let mut candidates = Candidates::new();
    let mut generator = Generator::new(seed, choice);
    for _ in 0..count {
        let file = generator.next_file();
        if file.len() > LONGEST || known.contains(file) {
            continue;
        }
        let file = file.to_vec();
        let answer = answer(&file)?;
        known.insert(file.clone());
        let queue = candidates.entry((answer[0], answer[2])).or_default();
        queue.push_back(Vector { file, answer });
    }
    Ok(candidates)
}

fn answer(file: &[u8]) -> Result<Answer, String> {
    let verdict = verdict(file).map_err(|text| format!("{text}: {file:02x?}"))?;
    Ok(match verdict {
        Ok(header) => {
            let version = u32::from(header.version);
            [0, 0, version, header.frame_count, header.initial_count]
        }
        Err(refusal) => [refusal.number, refusal.place as u32, 0, 0, 0],
    })
}

/// The stored form: for each vector the file's length, the file and the five numbers of the answer, then [`stored::END`].
pub fn to_bytes(vectors: &[Vector]) -> Vec<u8> {
    let mut bytes = Vec::new();
    for Vector { file, answer } in vectors {
        stored::put(&mut bytes, &[file.len() as u32]);
        bytes.extend(file);
        stored::put(&mut bytes, answer);
    }
    stored::put(&mut bytes, &[stored::END]);
    bytes
}
