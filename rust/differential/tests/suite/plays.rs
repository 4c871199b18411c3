//! The library's player against the original's.

use differential::generators::{Choice, Family, Generator};
use differential::model::weight;
use differential::plays::Plays;

#[test]
fn library_and_original_play_alike() {
    let mut plays = Plays::new(11);
    let mut generator = Generator::new(11, Choice::of(Family::Valid));
    for _ in 0..5_000 {
        let file = generator.next_file();
        if weight::writes(file) < 100_000 {
            let answer = plays.play(file);
            answer.unwrap_or_else(|text| panic!("{text}: {file:02x?}"));
        }
    }
    let counts = plays.counts();
    assert!(counts.all_occurred(), "{counts:?}");
}
