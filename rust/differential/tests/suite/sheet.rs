//! P1 to P12 of the sheet, as far as the original can say them, and its executed examples.

use crate::{hex, numbers};
use differential::model::{Operation, Stream};
use differential::oracle::{self, Player, Vsync, messages};
use differential::sheet::{self, opening};

const P3: &str = "53475542 01100000 00000001 00000000 00000016 0000";
const P7: &str = "53475542 02100000 00000001 00000000 00000000 00000028 00000028 00000028 \
                  0000002A 00280000 0000";

/// Every file that the sheet gives a number for. Library and sheet are compared elsewhere, with the places.
#[test]
fn the_original_says_the_sheets_numbers() {
    for row in sheet::rows() {
        let [number, ..] = row.answer;
        let expected: Vec<u8> = (number > 0).then_some(number as u8).into_iter().collect();
        assert_eq!(numbers(&row.file), expected, "{}", row.name);
    }
}

#[test]
fn p3_is_one_empty_frame() {
    let accepted = oracle::verdict(&hex(P3)).unwrap();
    assert_eq!((accepted.version, accepted.frame_count), (1, 1));
    assert_eq!((accepted.repeats, accepted.frame_period), (false, 0));
    assert!(!accepted.uses_si22 && accepted.cards.is_empty() && accepted.pools.is_empty());
    assert_eq!(Stream::empty_frame(1).to_bytes(), hex(P3));
}

#[test]
fn p7_is_p3_repacked() {
    assert_eq!(oracle::repack(&hex(P3)).unwrap(), hex(P7));
    assert_eq!(Stream::empty_frame(2).to_bytes(), hex(P7));
}

#[test]
fn p11_opening_pcm_repacks_from_address_0() {
    let repacked = oracle::repack(&opening(1, Operation::write(2, 0, 0x55))).unwrap();
    assert_eq!(repacked.len(), 84);
    let pools = oracle::verdict(&repacked).unwrap().pools;
    assert_eq!(pools, [oracle::Pool { kind: 2, size: 1 }]);
    let message = oracle::repack(&opening(1, Operation::write(2, 1, 0x55))).unwrap_err();
    assert_eq!(
        message,
        "v2 compiler requires contiguous PCM initialization"
    );
}

#[test]
fn p12_p3_plays_nothing_then_32_closing_writes_then_nothing() {
    let mut player = Player::new(&hex(P3)).unwrap();
    let mut vsync = Vsync::default();
    let mut counts = [0; 4];
    for (index, count) in counts.iter_mut().enumerate() {
        player.advance_vsync(&mut vsync);
        *count = vsync.writes.len();
        assert!(vsync.device_writes.is_empty());
        assert_eq!(player.is_finished(), index > 0);
        if index == 1 {
            let closing = (0..32).map(|n| {
                let register = if n % 2 == 0 { 3 } else { 0x19 };
                ((n / 16) as u8, 0x800 + n / 2 % 8 * 32 + register, 0)
            });
            assert_eq!(vsync.writes, closing.collect::<Vec<_>>());
        }
    }
    assert_eq!(counts, [0, 32, 0, 0]);
}

#[test]
fn a_version_2_copy_without_length_is_19_and_a_version_4_copy_17() {
    let copy = Operation::copy(2, 0, 0, 0, 0);
    for (version, number) in [(2, 19), (3, 19), (4, 17)] {
        let mut stream = Stream::empty_frame(version);
        let payload = vec![1];
        stream
            .pools
            .push(differential::model::Pool { kind: 2, payload });
        stream.opening.push(copy);
        assert_eq!(numbers(&stream.to_bytes()), [number]);
    }
}

#[test]
fn one_message_covers_several_numbers() {
    assert_eq!(messages::numbers("SGUB pooled header is truncated"), [1, 2]);
    assert_eq!(messages::numbers("invalid SGUB v2 stream"), [8, 9, 12, 14]);
}
