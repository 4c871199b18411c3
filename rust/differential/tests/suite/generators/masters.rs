//! The masters that repacking is compared on.

use differential::generators::masters::{MOST_WAVES, Masters, Waves, of_pcm, of_result, of_waves};
use differential::model::{MAX_SIZE, PCM_MEMORY};
use differential::oracle;
use differential::repacks::{self, Outcome};
use sgub::Refusal;

fn outcome(file: &[u8]) -> Outcome {
    repacks::repack(file, &mut Vec::new()).unwrap()
}

fn refused(number: u32) -> Outcome {
    Outcome::Refused(Refusal { number, place: 0 })
}

#[test]
fn results_have_the_size_that_is_asked_for() {
    for size in (126_000..126_012).chain([MAX_SIZE - 1, MAX_SIZE]) {
        assert_eq!(outcome(&of_result(size)), Outcome::Written(size));
    }
    for size in [MAX_SIZE + 1, MAX_SIZE + 2] {
        assert_eq!(outcome(&of_result(size)), refused(23));
    }
}

#[test]
fn pcm_of_every_size() {
    assert_eq!(outcome(&of_pcm(0)), Outcome::Written(42));
    assert_eq!(outcome(&of_pcm(1)), Outcome::Written(84));
    let full = PCM_MEMORY as usize;
    assert_eq!(
        outcome(&of_pcm(PCM_MEMORY - 1)),
        Outcome::Written(82 + full)
    );
    // All of PCM memory needs no FILL.
    assert_eq!(outcome(&of_pcm(PCM_MEMORY)), Outcome::Written(73 + full));
}

#[test]
fn waves_differ_as_they_say() {
    for (waves, count, distinct) in [
        (Waves::Different, 300, 300),
        (Waves::AlikeInFront, 300, 256),
        (Waves::AlikeBehind, 300, 300),
        (Waves::Same, 300, 1),
        (Waves::AlikeBehind, MOST_WAVES, MOST_WAVES),
    ] {
        let master = of_waves(waves, count);
        assert!(matches!(outcome(&master), Outcome::Written(_)), "{waves:?}");
        let result = oracle::repack(&master).unwrap();
        let pools = oracle::verdict(&result).unwrap().pools;
        assert_eq!(pools.len(), distinct, "{waves:?}");
    }
}

/// A master with one wave more than the most is longer than a stream may be.
#[test]
fn no_master_has_more_waves() {
    assert_eq!(outcome(&of_waves(Waves::Same, MOST_WAVES + 1)), refused(8));
}

#[test]
fn drawn_masters_are_accepted_and_the_same_for_the_same_seed() {
    let (mut first, mut second) = (Masters::new(3), Masters::new(3));
    for _ in 0..500 {
        let file = first.next_file();
        assert_eq!(file, second.next_file());
        assert_eq!(oracle::verdict(file).unwrap().version, 1);
    }
}
