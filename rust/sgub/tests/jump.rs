//! Indexes and jumps through the wrapper.

use sgub::{LONGEST_INDEX, Refusal, StreamPlayer, WriteRecord, build_index, build_index_into};
use std::fs;
use std::path::Path;

fn example(name: &str) -> Vec<u8> {
    let examples = Path::new(env!("CARGO_MANIFEST_DIR")).join("../../examples");
    fs::read(examples.join(name)).unwrap()
}

const fn refused<T>(number: u32, place: usize) -> Result<T, Refusal> {
    Err(Refusal { number, place })
}

/// The writes of the next vsync.
fn vsync(player: &mut StreamPlayer, file: &[u8]) -> Vec<WriteRecord> {
    let mut run = [WriteRecord::default(); 300];
    let told = player.advance_vsync(file, &mut run).unwrap();
    assert!(told.complete);
    run[..told.count].to_vec()
}

#[test]
fn an_index_has_the_places_of_every_64th_frame() {
    let file = example("scale-2.sgub");
    let index = build_index(&file).unwrap();
    assert_eq!(index, example("scale-2.sgub.index"));
    let numbers: Vec<u32> = index
        .chunks(4)
        .map(|bytes| u32::from_be_bytes(bytes.try_into().unwrap()))
        .collect();
    // 16 of 64 frames have three WRITEs of 6 bytes.
    let frames = 64 * 2 + 16 * 18;
    let start = sgub::check(&file).unwrap().frame_start;
    let places = [start, start + frames, start + 2 * frames];
    assert_eq!(numbers[..3], places);
    assert_eq!(numbers[3..], [12, 3, file.len() as u32]);
}

#[test]
fn an_index_needs_its_room_and_no_more() {
    let file = example("scale-2.sgub");
    let index = build_index(&file).unwrap();
    for room in [0, 12, 23] {
        let mut buffer = vec![0xA5; room];
        assert_eq!(build_index_into(&file, &mut buffer), refused(24, 0));
        assert!(buffer.iter().all(|byte| *byte == 0xA5));
    }
    for room in [24, 25, LONGEST_INDEX] {
        let mut buffer = vec![0xA5; room];
        assert_eq!(build_index_into(&file, &mut buffer), Ok(24));
        assert_eq!(buffer[..24], index);
        assert!(buffer[24..].iter().all(|byte| *byte == 0xA5));
    }
    let file = example("refused-16.sgub");
    assert_eq!(build_index(&file), refused(16, 20));
    assert_eq!(build_index(&[]), refused(1, 0));
}

/// From each frame on the writes are those of the whole pass.
#[test]
fn a_jump_goes_on_with_the_frame() {
    let file = example("scale-2.sgub");
    let index = build_index(&file).unwrap();
    let mut whole = StreamPlayer::start(&file).unwrap();
    let vsyncs: Vec<_> = (0..132).map(|_| vsync(&mut whole, &file)).collect();
    assert!(whole.is_finished());
    let mut player = StreamPlayer::start(&file).unwrap();
    for frame in [130, 65, 64, 2, 129, 128, 3] {
        player.jump_to_frame(&file, &index, frame).unwrap();
        assert_eq!(player.frame_index(), frame - 1);
        for expected in &vsyncs[frame as usize - 1..131] {
            assert_eq!(vsync(&mut player, &file), *expected);
        }
        assert!(player.is_finished());
        assert_eq!(vsync(&mut player, &file), []);
    }
}

/// The rest of a vsync is dropped, and the wave sources stay as the jump found them.
#[test]
fn a_jump_drops_what_is_left_over() {
    let file = example("scale-2.sgub");
    let index = build_index(&file).unwrap();
    let mut player = StreamPlayer::start(&file).unwrap();
    assert_eq!(player.wave_source(0, 0), None);
    let told = player.advance_vsync(&file, &mut [WriteRecord::default(); 1]);
    assert!(!told.unwrap().complete);
    assert_eq!(player.wave_source(0, 0), Some(0));
    player.jump_to_frame(&file, &index, 2).unwrap();
    assert_eq!(vsync(&mut player, &file), []);
    assert_eq!(player.wave_source(0, 0), Some(0));
    assert_eq!(player.frame_index(), 2);
    // Before anything is played the opening is dropped too, and no wave was copied.
    let mut player = StreamPlayer::start(&file).unwrap();
    player.jump_to_frame(&file, &index, 1).unwrap();
    assert_eq!(vsync(&mut player, &file).len(), 3);
    assert_eq!(player.wave_source(0, 0), None);
}

#[test]
fn the_refusals_come_in_their_order() {
    let (file, other) = (example("scale-2.sgub"), example("tune-2.sgub"));
    let (index, damaged) = (build_index(&file).unwrap(), example("refused-26.index"));
    let mut player = StreamPlayer::start(&file).unwrap();
    let before = player.clone();
    for (file, index, frame, number, place) in [
        (&file[..40], &damaged[..], 0, 8, 0),
        (&example("refused-16.sgub"), &damaged, 0, 16, 20),
        (&other, &damaged, 0, 25, 0),
        (&other, &build_index(&other).unwrap(), 1, 25, 0),
        (&file, &damaged, 0, 26, 0),
        (&file, &index[..23], 1, 26, 0),
        (&file, &[], 1, 26, 0),
        (&file, &index, 0, 27, 0),
        (&file, &index, 131, 27, 0),
        (&file, &index, u32::MAX, 27, 0),
    ] {
        let told = player.jump_to_frame(file, index, frame);
        assert_eq!(told, refused(number, place));
        assert_eq!(player, before);
    }
    assert_eq!(player.jump_to_frame(&file, &index, 130), Ok(()));
}

/// The file repeats as before.
#[test]
fn a_repeating_file_goes_on_with_frame_1() {
    let file = example("bank-3.sgub");
    let index = build_index(&file).unwrap();
    let mut player = StreamPlayer::start(&file).unwrap();
    player.jump_to_frame(&file, &index, 2).unwrap();
    let targets = [0, 3, 0, 3].map(|_| vsync(&mut player, &file)[0].target);
    assert_eq!(targets, [0, 3, 0, 3]);
}
