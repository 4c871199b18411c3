//! Holds the declarations of this module against the library itself.

use super::{CardTable, Header, Player, Progress, WaveSource};
use crate::{PoolEntry, WriteRecord};
use std::fs;
use std::path::Path;

pub fn example(name: &str) -> Vec<u8> {
    let examples = Path::new(env!("CARGO_MANIFEST_DIR")).join("../../examples");
    fs::read(examples.join(name)).unwrap()
}

/// The library has this layout: a player of version 4, unplayed and behind the first write of its second operation.
#[test]
fn the_library_has_these_declarations() {
    let file = example("cards-4.sgub");
    let mut started = super::start(&file);
    let verdict = super::check(&file);
    let header = Header {
        version: verdict.version,
        repeat: verdict.repeats,
        frame_period: verdict.frame_period,
        card_count: verdict.card_count,
        frame_count: verdict.frame_count,
        pool_count: verdict.pool_count,
        initial_count: verdict.initial_count,
        directory_offset: verdict.directory_offset,
        initial_start: verdict.initial_start,
        frame_start: verdict.frame_start as usize,
        total_size: verdict.total_size,
    };
    let unplayed = Player {
        header,
        cards: CardTable {
            cards: std::array::from_fn(|index| super::card(&file, index).card),
            count: 2,
        },
        uses_si22: true,
        progress: Progress {
            part: 0,
            cursor: header.frame_start,
            operation_index: 0,
            operation_count: 0,
            write_index: 0,
            frame_index: 0,
            initialized: false,
            finished: false,
            wave_sources: [WaveSource {
                copied: false,
                pool: 0,
            }; 16],
        },
    };
    assert_eq!((started.number, started.place), (0, 0));
    assert_eq!(started.player, unplayed);

    // The opening begins with a COPY of a wave, 256 writes, which is 16 bytes long.
    let mut run = [WriteRecord::default(); 258];
    let vsync = super::advance_vsync(&mut started.player, &file, &mut run[..257]);
    assert_eq!((vsync.number, vsync.count, vsync.complete), (0, 257, false));
    let mut played = unplayed;
    played.progress = Progress {
        part: 1,
        operation_index: 1,
        operation_count: 4,
        write_index: 1,
        cursor: header.initial_start as usize + 16,
        ..unplayed.progress
    };
    played.progress.wave_sources[1].copied = true;
    assert_eq!(started.player, played);
    assert_eq!(run[257], WriteRecord::default());
}

/// As many entries as the run holds; the records behind them stay.
#[test]
fn pools_are_listed_into_a_run_of_any_length() {
    let entry = |(kind, size, offset)| PoolEntry { kind, size, offset };
    let pools = [(1, 256, 160), (2, 4, 416), (3, 16, 420)].map(entry);
    let before = entry((0xA5, 0xA5, 0xA5));
    let file = example("cards-4.sgub");
    for room in 0..=5 {
        let mut run = [before; 5];
        let told = super::pools(&file, &mut run[..room]);
        assert_eq!((told.number, told.place, told.count), (0, 0, 3));
        let (listed, behind) = run.split_at(room.min(3));
        assert_eq!(listed, &pools[..listed.len()]);
        assert!(behind.iter().all(|entry| *entry == before));
    }
    let mut run = [before; 5];
    let told = super::pools(&file[..file.len() - 1], &mut run);
    assert_eq!((told.number, told.place, told.count), (8, 0, 0));
    assert_eq!(run, [before; 5]);
}
