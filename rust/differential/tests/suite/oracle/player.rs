//! The records of the original's player: order, PCM once, device writes, wave sources, and the counting cores beside them.

use differential::generators::{Choice, Family, Generator};
use differential::model::{Card, Operation, Pool, Stream, weight};
use differential::oracle::{self, CountingPlayer, Player, Vsync};

/// Version 4 with a card in slot 1, a wave, and an operation of every kind.
fn every_kind() -> Stream {
    let mut name = [0; 16];
    name[0] = b'C';
    Stream {
        version: 4,
        cards: vec![Card {
            slot: 1,
            name_length: 1,
            name,
            name_offset: 0,
            bulk_start: 0x10,
            bulk_length: 4,
        }],
        pools: vec![Pool {
            kind: 1,
            payload: (0..=255).collect(),
        }],
        opening: vec![
            Operation::write(1, 0x8ff, 1),
            Operation::write(2, 5, 2),
            Operation::write(0, 0x800, 3),
            Operation::write(11, 0x3f, 4),
        ],
        frames: vec![
            vec![
                Operation::Fill {
                    target: 4,
                    address: 0x12,
                    length: 2,
                    value: 5,
                },
                Operation::Fill {
                    target: 2,
                    address: 0xf_fffe,
                    length: 2,
                    value: 6,
                },
            ],
            vec![Operation::Copy {
                target: 1,
                address: 0x700,
                pool: 0,
                source: 0,
                length: 256,
            }],
        ],
        ..Stream::default()
    }
}

#[test]
fn writes_come_in_the_files_order_and_pcm_once() {
    let mut player = Player::new(&every_kind().to_bytes()).unwrap();
    let mut vsync = Vsync::default();
    player.advance_vsync(&mut vsync);
    let writes = [
        (1, 0x8ff, 1),
        (2, 5, 2),
        (0, 0x800, 3),
        (2, 0xf_fffe, 6),
        (2, 0xf_ffff, 6),
    ];
    assert_eq!(vsync.writes, writes);
    assert_eq!(
        vsync.device_writes,
        [(11, 0x3f, 4), (4, 0x12, 5), (4, 0x13, 5)]
    );
    assert_eq!(player.frame_index(), 1);
    assert_eq!(player.wave_source(1, 7), None);

    player.advance_vsync(&mut vsync);
    let wave: Vec<_> = (0..256).map(|n| (1, 0x700 + n, n as u8)).collect();
    assert_eq!(vsync.writes, wave);
    assert_eq!(player.wave_source(1, 7), Some(0));
    assert_eq!(player.wave_sources()[0], [None; 8]);
    assert_eq!(
        (player.wave_source(2, 0), player.wave_source(0, 8)),
        (None, None)
    );

    player.advance_vsync(&mut vsync);
    assert_eq!(vsync.writes.len(), 32);
    assert_eq!(vsync.device_writes, [(11, 0x0c, 0)]);
    assert!(player.is_finished());
}

#[test]
fn a_repeating_file_plays_frame_1_again_without_the_opening() {
    let mut stream = every_kind();
    stream.repeat = true;
    let mut player = Player::new(&stream.to_bytes()).unwrap();
    let mut vsync = Vsync::default();
    for _ in 0..3 {
        player.advance_vsync(&mut vsync);
    }
    assert_eq!(vsync.writes, [(2, 0xf_fffe, 6), (2, 0xf_ffff, 6)]);
    assert_eq!(player.frame_index(), 1);
    assert!(!player.is_finished());
}

#[test]
fn an_accepted_file_is_described() {
    let file = every_kind().to_bytes();
    let accepted = oracle::verdict(&file).unwrap();
    assert!(accepted.uses_si22);
    assert_eq!(accepted.cards[0].id, b"C");
    assert_eq!(accepted.pools, [oracle::Pool { kind: 1, size: 256 }]);
    let player = Player::new(&file).unwrap();
    let wave: Vec<u8> = (0..=255).collect();
    assert_eq!(player.pool_payload(0), Some((1, wave.as_slice())));
    assert_eq!(player.pool_payload(1), None);
}

/// Recorded writes, counted calls and what the operations say are three ways to the same number.
#[test]
fn recording_counting_and_weighing_agree() {
    let mut generator = Generator::new(7, Choice::of(Family::Valid));
    let mut vsync = Vsync::default();
    for _ in 0..3000 {
        let file = generator.next_file();
        let weight = weight::writes(file);
        if weight > 100_000 {
            continue;
        }
        let mut player = Player::new(file).unwrap();
        let mut counter = CountingPlayer::new(file).unwrap();
        let (mut cores, mut pcm, mut devices) = ([0, 0], 0, 0);
        for _ in 0..oracle::verdict(file).unwrap().frame_count {
            player.advance_vsync(&mut vsync);
            counter.advance_vsync();
            for (target, ..) in &vsync.writes {
                match target {
                    0 | 1 => cores[usize::from(*target)] += 1,
                    _ => pcm += 1,
                }
            }
            devices += vsync.device_writes.len() as u64;
        }
        assert_eq!(cores[0] + cores[1] + pcm + devices, weight);
        assert_eq!(
            counter.tallies().map(|tally| tally.calls),
            cores.map(|n| n + pcm)
        );
        assert_eq!(counter.device_writes(), devices);
    }
}
