//! The original's repacker: where it differs from the sheet, and what the master shapes make of it.

use crate::{hex, numbers};
use differential::generators::shapes::Shape;
use differential::model::{Stream, WAVE};
use differential::oracle::{self, Player, Pool, Vsync, Write};
use differential::rng::Rng;

#[test]
fn a_record_to_target_3_is_repacked() {
    let master = hex("534755420110000000000001000000010000001B03000000010000");
    assert_eq!(numbers(&master), [15]);
    assert_eq!(oracle::repack(&master).unwrap().len(), 48);
}

#[test]
fn a_master_without_frames_is_repacked() {
    let master = hex("5347554201100000000000000000000000000014");
    assert_eq!(numbers(&master), [8]);
    assert_eq!(oracle::repack(&master).unwrap().len(), 40);
}

/// This one is not run: the original would ask for 103 GB.
#[test]
fn a_great_count_asks_for_memory() {
    let master = hex("534755420110000000000001FFFFFFFF000000160000");
    assert_eq!(numbers(&master), [12]);
    assert!(oracle::asks_for_too_much(&master));
}

/// Draws `count` masters of a shape with their repacking.
fn each(shape: Shape, count: u32, mut visit: impl FnMut(&Stream, Result<Vec<u8>, String>)) {
    let mut rng = Rng::new(u64::from(count));
    let mut stream = Stream::default();
    for _ in 0..count {
        shape.draw(1, &mut rng, &mut stream);
        let master = stream.to_bytes();
        assert!(!oracle::asks_for_too_much(&master));
        visit(&stream, oracle::repack(&master));
    }
}

/// The numbers of waves that the repackings of a shape have, by how often.
fn waves(shape: Shape) -> [u32; 10] {
    let mut counts = [0; 10];
    each(shape, 300, |_, result| {
        // A master of this shape may also have an opening that is refused.
        if let Ok(file) = result {
            let pools = oracle::verdict(&file).unwrap().pools;
            let wave = |pool: &&Pool| pool.kind == 1 && pool.size == WAVE as usize;
            counts[pools.iter().filter(wave).count()] += 1;
        }
    });
    counts
}

#[test]
fn wave_shapes_are_what_they_say() {
    for shape in [
        Shape::WaveShort,
        Shape::WaveCrossing,
        Shape::WaveBroken,
        Shape::Small,
    ] {
        let counts = waves(shape);
        assert!(counts[0] > 200, "{shape:?}");
        assert_eq!(counts[1..], [0; 9], "{shape:?}");
    }
    for shape in [Shape::WaveWhole, Shape::WaveRepeated] {
        let counts = waves(shape);
        assert!(counts[1] > 200, "{shape:?}");
        assert_eq!(counts[0], 0, "{shape:?}");
        assert_eq!(counts[2..], [0; 8], "{shape:?}");
    }
    let alike = waves(Shape::WaveAlike);
    assert_eq!(alike[..2], [0, 0]);
    assert!(alike[2..=5].iter().all(|count| *count > 0));
    let shifted = waves(Shape::WaveShifted);
    assert!(shifted[0] > 0 && shifted[1] > 0);
    let past = waves(Shape::WavePast);
    assert!(past[1..=8].iter().all(|count| *count > 0), "{past:?}");
}

#[test]
fn pcm_shapes_are_what_they_say() {
    each(Shape::PcmOrdered, 100, |_, result| {
        assert_eq!(oracle::verdict(&result.unwrap()).unwrap().pools[0].kind, 2);
    });
    let mut refused = 0;
    each(Shape::PcmDisordered, 100, |_, result| {
        refused += u32::from(result.is_err());
    });
    assert!(refused > 50, "{refused}");
}

#[test]
fn a_full_pcm_memory_needs_no_fill() {
    each(Shape::PcmFull, 1, |stream, result| {
        let file = result.unwrap();
        let pools = oracle::verdict(&file).unwrap().pools;
        let size = 1_048_576;
        assert_eq!(pools, [Pool { kind: 2, size }]);
        let operations = u32::from_be_bytes(file[16..20].try_into().unwrap());
        assert_eq!(operations as usize, stream.opening.len() - size + 1);
    });
}

/// The writes of a vsync to the cores, and PCM memory after it.
fn heard(player: &mut Player, memory: &mut [u8]) -> Vec<Write> {
    let mut vsync = Vsync::default();
    player.advance_vsync(&mut vsync);
    for (_, address, value) in vsync.writes.iter().filter(|write| write.0 == 2) {
        memory[*address as usize] = *value;
    }
    vsync.writes.retain(|write| write.0 < 2);
    vsync.writes
}

/// Repacking changes nothing that can be heard.
#[test]
fn a_repacked_master_plays_the_same() {
    for shape in Shape::of(1).filter(|shape| !shape.is_huge()) {
        each(shape, 10, |stream, result| {
            let Ok(file) = result else { return };
            let mut players = [stream.to_bytes(), file].map(|file| Player::new(&file).unwrap());
            let mut memories = [(); 2].map(|()| vec![0x80; 1_048_576]);
            for _ in 0..stream.frames.len() + 2 {
                let [first, second] = &mut players;
                let [master, other] = &mut memories;
                assert_eq!(heard(first, master), heard(second, other), "{shape:?}");
                assert_eq!(first.frame_index(), second.frame_index());
                assert_eq!(first.is_finished(), second.is_finished());
            }
            assert!(memories[0] == memories[1], "{shape:?}");
        });
    }
}
