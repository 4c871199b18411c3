//! Repacking by the wrapper: the sheet's examples, each refusal of its own, and what happens to the buffer.

use sgub::{LONGEST_RESULT, Refusal, check, repack, repack_to_vec};
use std::fs;
use std::path::Path;

/// P3 of the format sheet: version 1, one empty frame.
const P3: &[u8] = b"SGUB\x01\x10\0\0\0\0\0\x01\0\0\0\0\0\0\0\x16\0\0";

/// P7: P3 repacked.
const P7: &[u8] = b"SGUB\x02\x10\0\0\0\0\0\x01\0\0\0\0\0\0\0\0\0\0\0\x28\
    \0\0\0\x28\0\0\0\x28\0\0\0\x2A\0\x28\0\0\0\0";

/// P11: an opening PCM record, and one empty frame.
fn p11(address: u8) -> Vec<u8> {
    let mut master = b"SGUB\x01\x10\0\0\0\0\0\x01\0\0\0\x01\0\0\0\x1B\x02\0\0".to_vec();
    master.extend([address, 0x55, 0, 0]);
    master
}

fn refused<T>(number: u32) -> Result<T, Refusal> {
    Err(Refusal { number, place: 0 })
}

#[test]
fn the_sheets_examples() {
    assert_eq!(repack_to_vec(P3).as_deref(), Ok(P7));
    let result = repack_to_vec(&p11(0)).unwrap();
    assert_eq!(result.len(), 84);
    assert_eq!(result[56], 0x55);
    assert!(check(&result).is_ok());
    assert_eq!(repack_to_vec(&p11(1)), refused(22));
}

#[test]
fn bytes_behind_the_result_stay_and_a_short_buffer_is_not_written() {
    for room in P7.len()..P7.len() + 4 {
        let mut buffer = vec![0xA5; room];
        assert_eq!(repack(P3, &mut buffer), Ok(P7.len()));
        let (result, behind) = buffer.split_at(P7.len());
        assert_eq!(result, P7);
        assert!(behind.iter().all(|byte| *byte == 0xA5));
    }
    for room in 0..P7.len() {
        let mut buffer = vec![0xA5; room];
        assert_eq!(repack(P3, &mut buffer), refused(24));
        assert_eq!(buffer, vec![0xA5; room]);
    }
}

#[test]
fn refusals_come_in_their_order_whatever_the_room() {
    let mut empty = [];
    for buffer in [&mut empty[..], &mut [0xA5; 100]] {
        assert_eq!(repack(&[], buffer), refused(1));
        assert_eq!(repack(P7, buffer), refused(21));
        assert_eq!(repack(&p11(1), buffer), refused(22));
        assert_eq!(repack(&long(), buffer), refused(23));
        assert!(buffer.iter().all(|byte| *byte == 0xA5));
    }
    let example = Path::new(env!("CARGO_MANIFEST_DIR")).join("../../examples/refused-16.sgub");
    let (number, place) = (16, 20);
    let answer = repack_to_vec(&fs::read(example).unwrap());
    assert_eq!(answer, Err(Refusal { number, place }));
}

/// An accepted master of core records, each of which takes a byte more in version 2.
fn long() -> Vec<u8> {
    let records = (LONGEST_RESULT - 22) / 5;
    let size = 20 + records * 5 + 2;
    let mut master = P3[..12].to_vec();
    master.extend((records as u32).to_be_bytes());
    master.extend((size as u32).to_be_bytes());
    master.resize(size, 0);
    assert!(check(&master).is_ok());
    master
}
