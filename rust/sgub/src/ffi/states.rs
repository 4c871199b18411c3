//! States that no start gives. A lent state may hold any numbers: a call with its file, and a jump, is 25 where the format sheet and
//! document 02 say so, and then changes nothing, and else it goes on.

use super::library::example;
use super::{Player, Progress};
use crate::WriteRecord;

/// The file whose states are altered, and its length.
const FILE: &str = "cards-4.sgub";
const SIZE: usize = 527;

/// The file's player at the third of its four opening operations, a FILL of 32,768 bytes of the card in slot 0.
fn at_the_fill(file: &[u8]) -> Player {
    let mut player = super::start(file).player;
    let vsync = super::advance_vsync(&mut player, file, &mut [WriteRecord::default(); 260]);
    assert_eq!((vsync.number, vsync.count), (0, 260));
    assert_eq!(player.progress.operation_index, 2);
    player
}

/// The number that a call gives; a refused one has no count and place 0, and leaves state and run as they were.
fn number(mut player: Player, file: &[u8], room: usize) -> u32 {
    let before = player;
    let mut run = vec![WriteRecord::default(); room];
    let vsync = super::advance_vsync(&mut player, file, &mut run);
    if vsync.number > 0 {
        assert_eq!((vsync.place, vsync.count, vsync.complete), (0, 0, false));
        assert_eq!(player, before);
        assert!(run.iter().all(|record| *record == WriteRecord::default()));
    }
    vsync.number
}

/// What is done to a state, and the number of a call with a run of one record.
type Case = (fn(&mut Player), u32);

/// Holds the calls of a state to the numbers of such cases.
fn numbers_are(state: Player, file: &[u8], cases: &[Case]) {
    for (index, (change, expected)) in cases.iter().enumerate() {
        let mut player = state;
        change(&mut player);
        assert_eq!(number(player, file, 1), *expected, "case {index}");
        // Finished, the same state reads no file.
        player.progress.finished = true;
        assert_eq!(number(player, &[], 1), 0, "case {index}, finished");
    }
}

#[test]
fn what_a_start_recorded_may_be_anything() {
    let file = example(FILE);
    let cases: &[Case] = &[
        (|_| (), 0),
        (|player| player.header.total_size = 526, 25),
        (|player| player.header.version = 0, 25),
        (|player| player.header.version = 5, 25),
        (|player| player.header.card_count = 8, 0),
        (|player| player.header.card_count = 9, 25),
        (|player| player.cards.count = 8, 0),
        (|player| player.cards.count = 9, 25),
        (|player| player.header.initial_start = SIZE as u32, 0),
        (|player| player.header.initial_start = SIZE as u32 + 1, 25),
        (|player| player.header.directory_offset = SIZE as u32, 0),
        (
            |player| player.header.directory_offset = SIZE as u32 + 1,
            25,
        ),
        (|player| player.header.frame_start = SIZE, 0),
        (|player| player.header.frame_start = SIZE + 1, 25),
        // The FILL ends where the limit is, or behind it (14).
        (|player| player.header.frame_start = 479, 0),
        (|player| player.header.frame_start = 478, 25),
        // The card that the operation uses: no name (7), another slot (15), another range (17). The other card is not looked at.
        (|player| player.cards.cards[0].id_length = 0, 25),
        (|player| player.cards.cards[0].slot = 1, 25),
        (|player| player.cards.cards[0].bulk_length = 0x7FFF, 25),
        (|player| player.cards.cards[1].id_length = 0, 0),
        (|player| player.cards.count = 0, 25),
    ];
    numbers_are(at_the_fill(&file), &file, cases);
}

#[test]
fn progress_may_be_anything() {
    let file = example(FILE);
    let cases: &[Case] = &[
        (|player| player.progress.cursor = SIZE + 1, 25),
        // An operation that has no bytes (14).
        (|player| player.progress.cursor = SIZE, 25),
        (|player| player.progress.frame_index = 2, 0),
        (|player| player.progress.frame_index = 3, 25),
        (|player| player.progress.operation_index = 4, 0),
        (|player| player.progress.operation_index = 5, 25),
        (|player| player.progress.write_index = 0x8000, 0),
        (|player| player.progress.write_index = 0x8001, 25),
    ];
    numbers_are(at_the_fill(&file), &file, cases);
}

#[test]
fn a_call_without_room_reads_no_operation() {
    let file = example(FILE);
    let mut player = at_the_fill(&file);
    player.progress.write_index = 0x8001;
    player.cards.cards[0].id_length = 0;
    assert_eq!(number(player, &file, 0), 0);
    player.progress.frame_index = 3;
    assert_eq!(number(player, &file, 0), 25);
}

#[test]
fn closing_writes_are_counted() {
    let file = example(FILE);
    let mut player = super::start(&file).player;
    for (write_index, expected) in [(0, 0), (33, 0), (34, 25), (u32::MAX, 25)] {
        player.progress = Progress {
            part: 3,
            initialized: true,
            write_index,
            ..player.progress
        };
        for room in [0, 1, 64] {
            assert_eq!(
                number(player, &file, room),
                expected,
                "{write_index}, {room}"
            );
        }
    }
}

/// The number that a jump to frame 2 gives; a refused one has place 0 and leaves the state as it was, and another sets how far the
/// player is and nothing else.
fn jump_number(mut player: Player, file: &[u8]) -> u32 {
    let before = player;
    let index = crate::build_index(file).unwrap();
    let jumped = super::index::jump(&mut player, file, &index, 2);
    let mut expected = before;
    if jumped.number == 0 {
        expected.progress = Progress {
            part: 0,
            cursor: SIZE - 16,
            operation_index: 0,
            operation_count: 0,
            write_index: 0,
            frame_index: 1,
            initialized: true,
            finished: false,
            wave_sources: before.progress.wave_sources,
        };
    }
    assert_eq!((player, jumped.place), (expected, 0));
    jumped.number
}

/// What is done to a state makes a jump 25, finished or not, or it does not.
fn jumps_are(state: Player, file: &[u8], number: u32, changes: &[fn(&mut Player)]) {
    for (index, change) in changes.iter().enumerate() {
        for finished in [false, true] {
            let mut player = state;
            player.progress.finished = finished;
            change(&mut player);
            let found = jump_number(player, file);
            assert_eq!(found, number, "case {index}, finished {finished}");
        }
    }
}

/// Every field that a start records has to be the lent file's: cards below the count, and no others.
#[test]
fn a_jump_compares_all_that_a_start_recorded() {
    let file = example(FILE);
    let others: &[fn(&mut Player)] = &[
        |player| player.header.version = 3,
        |player| player.header.repeat = true,
        |player| player.header.frame_period += 1,
        |player| player.header.card_count = 1,
        |player| player.header.frame_count += 1,
        |player| player.header.pool_count += 1,
        |player| player.header.initial_count += 1,
        |player| player.header.directory_offset -= 1,
        |player| player.header.initial_start -= 1,
        |player| player.header.frame_start -= 1,
        |player| player.header.total_size -= 1,
        |player| player.cards.count = 1,
        |player| player.cards.count = 3,
        |player| player.cards.count = 9,
        |player| player.cards.cards[0].slot += 1,
        |player| player.cards.cards[0].id_length -= 1,
        |player| player.cards.cards[1].id_offset += 1,
        |player| player.cards.cards[1].bulk_start += 1,
        |player| player.cards.cards[1].bulk_length += 1,
        |player| player.cards.cards[1].id[15] = 1,
        |player| player.uses_si22 = false,
    ];
    jumps_are(at_the_fill(&file), &file, 25, others);
    let same: &[fn(&mut Player)] = &[
        |_| (),
        |player| player.cards.cards[2].slot = 1,
        |player| player.cards.cards[7].id[0] = 1,
    ];
    jumps_are(at_the_fill(&file), &file, 0, same);
}

/// Of a player's progress a jump tests what a vsync call tests before it reads an operation, and in the closing writes their count.
#[test]
fn a_jump_tests_places_and_counters() {
    let file = example(FILE);
    let others: &[fn(&mut Player)] = &[
        |player| player.progress.cursor = SIZE + 1,
        |player| player.progress.frame_index = 3,
        |player| player.progress.operation_index = 5,
        |player| (player.progress.part, player.progress.write_index) = (3, 34),
        |player| (player.progress.part, player.progress.write_index) = (255, 34),
    ];
    jumps_are(at_the_fill(&file), &file, 25, others);
    let same: &[fn(&mut Player)] = &[
        |player| player.progress.cursor = SIZE,
        |player| player.progress.frame_index = 2,
        |player| player.progress.operation_index = 4,
        |player| player.progress.write_index = 34,
        |player| player.progress.write_index = u32::MAX,
        |player| (player.progress.part, player.progress.write_index) = (3, 33),
        |player| (player.progress.part, player.progress.write_index) = (4, 33),
        |player| player.progress.initialized = false,
        |player| player.progress.wave_sources[15].copied = true,
    ];
    jumps_are(at_the_fill(&file), &file, 0, same);
}

/// The player of a refused file has recorded the size 0, so that a file that is accepted is not its own.
#[test]
fn a_refused_start_takes_no_jump() {
    let file = example(FILE);
    let player = super::start(&example("refused-16.sgub")).player;
    assert_eq!(jump_number(player, &file), 25);
    let mut same = player;
    let jumped = super::index::jump(&mut same, &example("refused-16.sgub"), &[], 0);
    assert_eq!((jumped.number, jumped.place), (16, 20));
    assert_eq!(same, player);
}
