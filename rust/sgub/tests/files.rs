//! The wrapper's answers on the examples of the repository and on bytes that are none.

use sgub::{Card, Header, PoolEntry, Refusal, StreamPlayer};
use std::fs;
use std::path::Path;

fn example(name: &str) -> Vec<u8> {
    let examples = Path::new(env!("CARGO_MANIFEST_DIR")).join("../../examples");
    fs::read(examples.join(name)).unwrap()
}

fn refused(number: u32, place: usize) -> Result<Header, Refusal> {
    Err(Refusal { number, place })
}

#[test]
fn verdicts_of_the_sheets_examples() {
    let p3 = example("empty-1.sgub");
    let accepted = Header {
        version: 1,
        repeats: false,
        uses_si22: false,
        card_count: 0,
        frame_period: 0,
        frame_count: 1,
        pool_count: 0,
        initial_count: 0,
        directory_offset: 20,
        initial_start: 20,
        frame_start: 20,
        total_size: 22,
    };
    assert_eq!(sgub::check(&p3), Ok(accepted));
    assert_eq!(sgub::check(&[]), refused(1, 0));
    assert_eq!(sgub::check(b"SGUB"), refused(1, 0));
    for (at, value, number) in [(11, 0, 8), (5, 15, 4), (4, 5, 3)] {
        let mut file = p3.clone();
        file[at] = value;
        assert_eq!(sgub::check(&file), refused(number, 0));
    }
    assert_eq!(sgub::check(&example("refused-16.sgub")), refused(16, 20));
}

#[test]
fn everything_about_a_file_of_version_4() {
    let file = example("cards-4.sgub");
    let header = Header {
        version: 4,
        repeats: false,
        uses_si22: true,
        card_count: 2,
        frame_period: 800_000,
        frame_count: 2,
        pool_count: 3,
        initial_count: 4,
        directory_offset: 112,
        initial_start: 436,
        frame_start: 495,
        total_size: 527,
    };
    assert_eq!(sgub::check(&file), Ok(header));
    let card = Card {
        slot: 0,
        id_length: 9,
        id_offset: 0x100,
        bulk_start: 0x1000,
        bulk_length: 0x8000,
        id: *b"SRC32-PCM\0\0\0\0\0\0\0",
    };
    assert_eq!(sgub::card(&file, 0), Ok(Some(card)));
    let second = sgub::card(&file, 1).unwrap().unwrap();
    assert_eq!(second.name(), b"OPL");
    for index in [2, 7, 8, usize::MAX] {
        assert_eq!(sgub::card(&file, index), Ok(None));
    }
    let pool = sgub::pool(&file, 1).unwrap().unwrap();
    assert_eq!(
        (pool.kind, pool.payload),
        (2, &[0x80, 0xc0, 0x80, 0x40][..])
    );
    assert!(std::ptr::eq(pool.payload, &file[416..420]));
    assert_eq!(sgub::pool(&file, 3), Ok(None));
    assert_eq!(sgub::pool(&file, u16::MAX), Ok(None));
    let pools = [(1, 256, 160), (2, 4, 416), (3, 16, 420)];
    let entry = |(kind, size, offset)| PoolEntry { kind, size, offset };
    assert_eq!(sgub::pools(&file).unwrap(), pools.map(entry));
}

#[test]
fn each_function_gives_the_verdict_on_a_refused_file() {
    let whole = example("cards-4.sgub");
    for (file, number, place) in [
        (&[][..], 1, 0),
        (&example("refused-7.sgub"), 7, 80),
        (&example("refused-16.sgub"), 16, 20),
        (&whole[..whole.len() - 1], 8, 0),
    ] {
        let refusal = Refusal { number, place };
        assert_eq!(sgub::check(file), Err(refusal));
        assert_eq!(sgub::card(file, 0), Err(refusal));
        assert_eq!(sgub::card(file, usize::MAX), Err(refusal));
        assert_eq!(sgub::pool(file, 0), Err(refusal));
        assert_eq!(sgub::pools(file), Err(refusal));
        assert_eq!(StreamPlayer::start(file), Err(refusal));
    }
}

#[test]
fn a_file_of_version_1_has_no_cards_and_no_pools() {
    let file = example("tune-1.sgub");
    assert_eq!(sgub::card(&file, 0), Ok(None));
    assert_eq!(sgub::pool(&file, 0), Ok(None));
    assert_eq!(sgub::pools(&file), Ok(Vec::new()));
}
