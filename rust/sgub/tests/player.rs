//! The wrapper's player on the examples of the repository.

use sgub::{Refusal, StreamPlayer, Vsync, WriteRecord};
use std::fs;
use std::path::Path;

fn example(name: &str) -> Vec<u8> {
    let examples = Path::new(env!("CARGO_MANIFEST_DIR")).join("../../examples");
    fs::read(examples.join(name)).unwrap()
}

fn run(records: usize) -> Vec<WriteRecord> {
    vec![WriteRecord::default(); records]
}

const COMPLETE: Vsync = Vsync {
    count: 0,
    complete: true,
};

/// P12 of the format sheet: no writes, then 32, then none.
#[test]
fn an_empty_file_has_closing_writes_only() {
    let file = example("empty-1.sgub");
    let mut player = StreamPlayer::start(&file).unwrap();
    assert_eq!(
        (player.version(), player.frame_count(), player.repeats()),
        (1, 1, false)
    );
    let mut run = run(40);
    assert_eq!(player.advance_vsync(&file, &mut run), Ok(COMPLETE));
    assert!(!player.is_finished());
    let closing = Vsync {
        count: 32,
        complete: true,
    };
    assert_eq!(player.advance_vsync(&file, &mut run), Ok(closing));
    assert!(player.is_finished());
    let last = WriteRecord {
        target: 1,
        address: 0x800 + 32 * 7 + 0x19,
        value: 0,
    };
    assert_eq!(run[31], last);
    assert_eq!(run[32..], [WriteRecord::default(); 8]);
    assert_eq!(player.advance_vsync(&file, &mut run), Ok(COMPLETE));
    // A finished player reads no file.
    assert_eq!(player.advance_vsync(&[], &mut run), Ok(COMPLETE));
}

#[test]
fn no_records_are_fine_and_change_nothing() {
    let file = example("tune-1.sgub");
    let mut player = StreamPlayer::start(&file).unwrap();
    let more = Vsync {
        count: 0,
        complete: false,
    };
    for _ in 0..3 {
        assert_eq!(player.advance_vsync(&file, &mut []), Ok(more));
    }
    let mut whole = run(300);
    let first = player.advance_vsync(&file, &mut whole).unwrap();
    assert_eq!((first.count, first.complete), (269, true));
    // The writes are the same through a run of 7.
    let mut player = StreamPlayer::start(&file).unwrap();
    let mut pieces = Vec::new();
    let mut calls = 0;
    loop {
        let mut piece = run(7);
        let told = player.advance_vsync(&file, &mut piece).unwrap();
        pieces.extend_from_slice(&piece[..told.count]);
        calls += 1;
        if told.complete {
            break;
        }
    }
    assert_eq!((calls, pieces.as_slice()), (39, &whole[..269]));
}

#[test]
fn another_file_is_refused_and_changes_nothing() {
    let file = example("tune-1.sgub");
    let mut player = StreamPlayer::start(&file).unwrap();
    let mut records = run(64);
    assert!(player.advance_vsync(&file, &mut records).is_ok());
    let before = (player.clone(), records.clone());
    let refusal = Refusal {
        number: 25,
        place: 0,
    };
    for other in [&[][..], &file[1..], &example("tune-2.sgub")] {
        assert_eq!(player.advance_vsync(other, &mut records), Err(refusal));
        assert_eq!((&player, &records), (&before.0, &before.1));
    }
    assert_eq!(refusal.to_string(), "refused 25 0");
}

#[test]
fn a_player_tells_of_its_file() {
    let file = example("cards-4.sgub");
    let mut player = StreamPlayer::start(&file).unwrap();
    assert_eq!((player.frame_period(), player.uses_si22()), (800_000, true));
    let cards: Vec<_> = player.card_requirements().collect();
    let read: Vec<_> = (0..2)
        .map(|index| sgub::card(&file, index).unwrap().unwrap())
        .collect();
    assert_eq!(cards, read);
    assert_eq!(player.frame_index(), 0);
    let none = |player: &StreamPlayer| {
        (0..3).all(|core| (0..9).all(|channel| player.wave_source(core, channel).is_none()))
    };
    assert!(none(&player));
    // The opening copies the wave, which is pool 0, to channel 1 of core 0; its first write counts.
    let first = player.advance_vsync(&file, &mut run(1)).unwrap();
    assert_eq!((first.count, first.complete), (1, false));
    assert_eq!(player.wave_source(0, 1), Some(0));
    assert_eq!(player.wave_source(0, 9), None);
    assert_eq!(player.wave_source(1, 1), None);
}

#[test]
fn a_refused_file_has_no_player() {
    let refusal = Refusal {
        number: 16,
        place: 20,
    };
    assert_eq!(
        StreamPlayer::start(&example("refused-16.sgub")),
        Err(refusal)
    );
    let refusal = Refusal {
        number: 1,
        place: 0,
    };
    assert_eq!(StreamPlayer::start(&[]), Err(refusal));
}
