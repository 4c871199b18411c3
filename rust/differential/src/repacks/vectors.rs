//! Masters with their repackings, stored for programs that have no generators.

pub use crate::lent::{Vector, to_bytes};

use super::repack;
use crate::generators::masters::{Masters, Waves, of_pcm, of_waves};
use crate::generators::{Choice, Family, Generator};
use crate::model::{Operation, PCM, Stream};
use crate::sheet;
use std::collections::HashSet;

/// The longest of the drawn files. Chance seldom makes a longer one worth its place.
const LONGEST_DRAWN: usize = 4096;

/// So many vectors of a seed, the chosen files first. Each repacked file comes with room of its size, with more, or, as
/// refusal 24, with a byte less.
///
/// # Errors
/// Where library and original differ.
pub fn choose(count: usize, seed: u64) -> Result<Vec<Vector>, String> {
    let mut vectors = Vec::with_capacity(count);
    for file in chosen() {
        for less in [-9, 0, 1] {
            vectors.push(vector(&file, less)?);
        }
    }
    let mut known = HashSet::new();
    let mut masters = Masters::new(seed);
    // Files of any version with something at or beside a limit of the sheet: refusals 1 to 21.
    let mut others = Generator::new(seed, Choice::of(Family::Boundary));
    while vectors.len() < count {
        let file = match vectors.len() % 8 {
            0 => others.next_file(),
            _ => masters.next_file(),
        };
        if file.len() <= LONGEST_DRAWN && known.insert(file.to_vec()) {
            let less = [0, -1, 1, -60][known.len() % 4];
            vectors.push(vector(file, less)?);
        }
    }
    Ok(vectors)
}

/// What repacking must tell apart: the sheet's examples (P3, of which P7 is the result, and P11), no waves, one wave twice,
/// all waves different, alike in front and behind, PCM of 1 byte and of as many as fit, and PCM writes in frames.
fn chosen() -> Vec<Vec<u8>> {
    let mut files: Vec<Vec<u8>> = sheet::rows().into_iter().map(|row| row.file).collect();
    files.extend([of_pcm(1), of_pcm(2), of_pcm(13_000)]);
    files.extend([
        of_waves(Waves::Same, 2),
        of_waves(Waves::Different, 2),
        of_waves(Waves::Different, 50),
        of_waves(Waves::AlikeInFront, 50),
        of_waves(Waves::AlikeBehind, 50),
    ]);
    let mut frames = Stream::empty_frame(1);
    frames.repeat = true;
    for address in [0, 1, 0xF_FFFF] {
        let records = [PCM, 0, 1].map(|target| Operation::write(target, address & 0x8ff, 7));
        frames.frames.push(records.to_vec());
        frames.frames.push(vec![Operation::write(PCM, address, 9)]);
    }
    files.push(frames.to_bytes());
    files
}

fn vector(file: &[u8], less: isize) -> Result<Vector, String> {
    let outcome =
        repack(file, &mut Vec::new()).map_err(|text| format!("{text}: {} bytes", file.len()))?;
    let result = || sgub::repack_to_vec(file).expect("it is repacked above");
    Ok(Vector::new(file, outcome, less, result))
}
