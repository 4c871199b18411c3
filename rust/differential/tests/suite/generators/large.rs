//! The ten benchmark shapes, at a size that is quick to test.

use differential::generators::shapes::{LARGE_MIN, Large, large};
use differential::model::MAX_SIZE;
use differential::oracle::{self, Accepted};

const BYTES: usize = 300_000;

#[test]
fn all_are_accepted_and_nearly_as_large_as_asked() {
    for shape in Large::ALL {
        let file = large(shape, BYTES);
        oracle::verdict(&file).unwrap_or_else(|message| panic!("{shape:?}: {message}"));
        assert!(file.len() <= BYTES, "{shape:?}");
        assert!(file.len() > BYTES - 3000, "{shape:?}: {} bytes", file.len());
        assert_eq!(file, large(shape, BYTES));
    }
}

#[test]
fn the_least_and_the_greatest_size_will_do() {
    for shape in Large::ALL {
        assert!(oracle::verdict(&large(shape, LARGE_MIN)).is_ok());
    }
    let file = large(Large::V2Writes, MAX_SIZE);
    assert!(oracle::verdict(&file).is_ok());
}

fn accepted(shape: Large) -> Accepted {
    oracle::verdict(&large(shape, BYTES)).unwrap()
}

#[test]
fn each_is_what_it_says() {
    let versions = Large::ALL.map(|shape| accepted(shape).version);
    assert_eq!(versions, [1, 1, 1, 1, 2, 2, 2, 3, 4, 4]);
    assert_eq!(
        accepted(Large::V1EmptyFrames).frame_count,
        (BYTES as u32 - 20) / 2
    );
    assert_eq!(accepted(Large::V2WaveCopies).pools.len(), BYTES / 4096);
    assert_eq!(accepted(Large::V2Pools).pools.len(), BYTES / 2 / 76);
    let cards = accepted(Large::V4Cards);
    assert!(cards.uses_si22);
    assert_eq!(cards.cards.len(), 8);
    let repacked = oracle::repack(&large(Large::V1Waves, BYTES)).unwrap();
    assert!(oracle::verdict(&repacked).unwrap().pools.len() > 50);
    let repacked = oracle::repack(&large(Large::V1Pcm, BYTES)).unwrap();
    assert_eq!(
        oracle::verdict(&repacked).unwrap().pools[0].size,
        BYTES * 3 / 4 / 5
    );
}

/// At the size of the benchmarks, the two that are cut down below it are whole.
#[test]
fn ten_megabytes_hold_all_pcm_and_all_pools() {
    let file = large(Large::V2Pools, 10_000_000);
    assert_eq!(oracle::verdict(&file).unwrap().pools.len(), 65_536);
    let file = large(Large::V1Pcm, 10_000_000);
    assert_eq!(file[12..16], 1_048_576u32.to_be_bytes());
}
