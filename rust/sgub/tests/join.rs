//! Joining by the wrapper: what a result holds, each refusal with its file, and what happens to the buffer.

use sgub::{LONGEST_RESULT, Piece, Refusal, RefusedJoin, check, join, join_to_vec, pools};
use std::fs;
use std::path::Path;

fn example(name: &str) -> Vec<u8> {
    let examples = Path::new(env!("CARGO_MANIFEST_DIR")).join("../../examples");
    fs::read(examples.join(name)).unwrap()
}

fn refused<T>(piece: Option<Piece>, number: u32, place: usize) -> Result<T, RefusedJoin> {
    let refusal = Refusal { number, place };
    Err(RefusedJoin { piece, refusal })
}

/// Version 2: pools of one byte, an opening of WRITEs, and frames of WRITEs, each write of value 0.
fn file(pools: usize, opening: usize, frames: &[u16]) -> Vec<u8> {
    let payloads = 40 + 16 * pools;
    let start = payloads + pools;
    let frame_start = start + 6 * opening;
    let frame = |count: &u16| 2 + 6 * usize::from(*count);
    let size = frame_start + frames.iter().map(frame).sum::<usize>();
    let header = [frames.len(), pools, opening, 40, start, frame_start, size];
    let mut file = b"SGUB\x02\x10\0\0".to_vec();
    file.extend(header.map(|field| (field as u32).to_be_bytes()).concat());
    file.extend([0, 40, 0, 0]);
    for id in 0..pools {
        file.extend((id as u16).to_be_bytes());
        file.extend([2, 0, 0, 0, 0, 1, 0, 0, 0, 1]);
        file.extend(((payloads + id) as u32).to_be_bytes());
    }
    file.resize(frame_start, 0);
    for count in frames {
        file.extend(count.to_be_bytes());
        file.resize(file.len() + 6 * usize::from(*count), 0);
    }
    file
}

/// Behind the scale, which has a wave, the tune: PCM and a wave, a COPY of each, a FILL and two WRITEs.
#[test]
fn the_examples_join() {
    let (scale, tune) = (example("scale-2.sgub"), example("tune-2.sgub"));
    let result = join_to_vec(&scale, &tune).unwrap();
    assert_eq!(result.len(), scale.len() + tune.len() - 40);
    let [first, second, both] = [&scale, &tune, &result].map(|file| check(file).unwrap());
    assert_eq!(both.version, 2);
    assert_eq!(both.frame_count, first.frame_count + second.frame_count);
    assert_eq!(both.initial_count, first.initial_count);
    let sizes = |file| {
        let entries = pools(file).unwrap().into_iter();
        entries.map(|pool| (pool.kind, pool.size))
    };
    assert!(sizes(&result).eq(sizes(&scale).chain(sizes(&tune))));

    // The last frame of the tune ends both.
    assert_eq!(result[result.len() - 18..], tune[tune.len() - 18..]);
    // In the tune's first frame its opening stands before its own operations.
    let at = both.frame_start as usize + scale.len() - first.frame_start as usize;
    let frame = &tune[second.frame_start as usize..];
    let count = u16::from_be_bytes([frame[0], frame[1]]) + second.initial_count as u16;
    assert_eq!(result[at..at + 2], count.to_be_bytes());
    // A COPY of the tune's pool 0, which is pool 1 now.
    let start = second.initial_start as usize;
    let opening = &tune[start..second.frame_start as usize];
    let copy = opening.windows(7).position(|bytes| bytes[..2] == [2, 2]);
    let copy = copy.expect("the opening copies PCM");
    assert_eq!(opening[copy + 5..copy + 7], [0, 0]);
    assert_eq!(result[at + 2 + copy + 5..at + 2 + copy + 7], [0, 1]);
}

#[test]
fn repeat_is_that_of_the_second() {
    for [first, second] in [[0, 0], [0, 1], [1, 0], [1, 1]] {
        let mut files = [file(0, 1, &[1]), file(0, 1, &[0, 2])];
        files[0][6] = first;
        files[1][6] = second;
        let result = join_to_vec(&files[0], &files[1]).unwrap();
        assert_eq!(check(&result).unwrap().repeats, second == 1);
    }
}

/// Also where the two files are one and the same memory.
#[test]
fn bytes_behind_the_result_stay_and_a_short_buffer_is_not_written() {
    let piece = file(1, 1, &[2, 0]);
    let size = 2 * piece.len() - 40;
    let result = join_to_vec(&piece, &piece.clone()).unwrap();
    assert_eq!(result.len(), size);
    for room in size..size + 4 {
        let mut buffer = vec![0xA5; room];
        assert_eq!(join(&piece, &piece, &mut buffer), Ok(size));
        let (front, behind) = buffer.split_at(size);
        assert_eq!(front, result);
        assert!(behind.iter().all(|byte| *byte == 0xA5));
    }
    for room in [0, 1, 40, size - 1] {
        let mut buffer = vec![0xA5; room];
        assert_eq!(join(&piece, &piece, &mut buffer), refused(None, 24, 0));
        assert_eq!(buffer, vec![0xA5; room]);
    }
}

#[test]
fn a_refusal_names_its_file_and_writes_nothing() {
    let two = example("empty-2.sgub");
    let (one, bad) = (example("empty-1.sgub"), example("refused-17.sgub"));
    let (first, second) = (Some(Piece::First), Some(Piece::Second));
    for (files, piece, number, place) in [
        ([&bad, &two], first, 17, 40),
        ([&bad, &bad], first, 17, 40),
        ([&bad, &one], first, 17, 40),
        ([&one, &bad], first, 21, 0),
        ([&one, &one], first, 21, 0),
        ([&example("bank-3.sgub"), &two], first, 21, 0),
        ([&two, &bad], second, 17, 40),
        ([&two, &one], second, 21, 0),
        ([&two, &example("cards-4.sgub")], second, 21, 0),
        ([&two, &Vec::new()], second, 1, 0),
    ] {
        let expected = refused(piece, number, place);
        for room in [0, 1000] {
            let mut buffer = vec![0xA5; room];
            assert_eq!(join(files[0], files[1], &mut buffer), expected);
            assert_eq!(buffer, vec![0xA5; room]);
        }
        let words = expected.unwrap_err().to_string();
        let name = piece.unwrap();
        assert_eq!(words, format!("refused {name} {number} {place}"));
    }
}

/// At each limit of the two together a pair that is joined, and one beyond it.
#[test]
fn the_limits_of_both_together() {
    let small = file(0, 0, &[0]);
    let size = |files: [&[u8]; 2]| files[0].len() + files[1].len() - 40;
    // Operations, in the opening, in the frame or in both. A long opening of the first file is none of its frames.
    for (opening, frame) in [(65_535, 0), (0, 65_535), (1, 65_534), (40_000, 25_535)] {
        let second = file(0, opening, &[frame]);
        let files = [&small[..], &second];
        assert_eq!(join_to_vec(&small, &second).unwrap().len(), size(files));
        let second = file(0, opening + 1, &[frame]);
        assert_eq!(join_to_vec(&small, &second), refused(None, 29, 0));
        assert!(join_to_vec(&second, &small).is_ok());
    }
    for [first, second] in [[65_536, 0], [0, 65_536], [32_768, 32_768]] {
        let (one, two) = (file(first, 0, &[0]), file(second, 0, &[0]));
        assert_eq!(join_to_vec(&one, &two).unwrap().len(), size([&one, &two]));
    }
    assert_eq!(
        join_to_vec(&file(65_536, 0, &[0]), &file(1, 0, &[0])),
        refused(None, 30, 0)
    );
    // Frames of two bytes up to the longest file, and a byte more by a pool of one byte.
    let longest = file(0, 0, &vec![0; (LONGEST_RESULT - 42) / 2]);
    assert_eq!(longest.len(), LONGEST_RESULT - 2);
    let result = join_to_vec(&longest, &small).unwrap();
    assert_eq!(result.len(), LONGEST_RESULT);
    assert!(check(&result).is_ok());
    for second in [file(0, 0, &[0, 0]), file(1, 0, &[0])] {
        assert_eq!(join_to_vec(&longest, &second), refused(None, 23, 0));
        assert_eq!(join(&longest, &second, &mut []), refused(None, 23, 0));
    }
    // 29 comes before 30, and both come before 23.
    let both = file(65_536, 65_535, &[1]);
    assert_eq!(join_to_vec(&both, &both), refused(None, 29, 0));
    assert_eq!(join_to_vec(&longest, &both), refused(None, 29, 0));
    let many = file(65_536, 0, &[0]);
    let long = file(1, 0, &vec![0; (LONGEST_RESULT - 100) / 2]);
    assert_eq!(join_to_vec(&long, &many), refused(None, 30, 0));
    assert_eq!(
        refused::<()>(None, 30, 0).unwrap_err().to_string(),
        "refused 30 0"
    );
}
