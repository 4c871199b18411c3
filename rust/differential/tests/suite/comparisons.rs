//! The pairs that are compared are what they say, and the model of the rule tells them apart by itself.

use differential::comparisons::listening::Listening;
use differential::comparisons::packing::{Style, pack};
use differential::comparisons::pairs::{Change, Kind, Pairs};
use differential::comparisons::{Comparisons, Outcome, vectors};
use differential::examples::example;
use differential::generators::shapes::Shape;
use differential::model::Stream;
use differential::rng::Rng;
use sgub::{Refusal, RefusedFile, Side};
use sgub_cli::Difference;

/// The repacked tune with one byte changed.
fn changed(at: usize) -> Vec<u8> {
    let mut file = example("tune-2");
    file[at] ^= 1;
    file
}

#[test]
fn listeners_hear_the_first_vsync_that_differs() {
    let master = example("tune-1");
    let mut listening = Listening::new(1);
    let mut hear = |other: &[u8]| listening.difference([&master, other]).unwrap();
    assert_eq!(hear(&example("tune-2")), None);
    // a byte of the PCM pool, of the wave pool, of the last frame's last write
    assert_eq!(hear(&changed(72)), Some(1));
    assert_eq!(hear(&changed(80)), Some(1));
    assert_eq!(hear(&changed(429)), Some(3));
    // whether it repeats: the closing writes come behind the last frame
    assert_eq!(hear(&changed(6)), Some(4));
}

#[test]
fn each_style_passes() {
    let rng = &mut Rng::new(1);
    let mut comparisons = Comparisons::new(1);
    let mut master = Stream::default();
    for shape in Shape::of(1) {
        for style in Style::ALL {
            shape.draw(1, rng, &mut master);
            let other = pack(rng, style, &master).to_bytes();
            let outcome = comparisons.compare([&master.to_bytes(), &other], [0, 1]);
            assert_eq!(outcome, Ok(Outcome::Passed), "{shape:?} {style:?}");
        }
    }
}

/// The kind of difference that a change is to make.
fn is_meant(change: Change, difference: Difference) -> bool {
    match change {
        Change::Repeat => matches!(difference, Difference::Repeat(_)),
        Change::FrameCount => matches!(difference, Difference::FrameCount(_)),
        Change::OpeningOrder | Change::OpeningLength | Change::OpeningTarget | Change::Moved => {
            matches!(difference, Difference::Opening { .. })
        }
        Change::PcmByte => matches!(difference, Difference::Pcm { .. }),
        Change::LastFrame | Change::FramePcm | Change::FrameOrder => {
            matches!(difference, Difference::Frame { .. })
        }
    }
}

#[test]
fn kinds_are_what_they_say() {
    let mut pairs = Pairs::new(1);
    let mut comparisons = Comparisons::new(1);
    let mut meant = [0; Kind::ALL.len()];
    for index in 0..40 * Kind::ALL.len() {
        let (kind, [master, other]) = pairs.next_pair();
        let outcome = comparisons.compare([&master, &other], [0, 0]).unwrap();
        let is_meant = match (kind, outcome) {
            (Kind::Repacked | Kind::Packed(_), outcome) => {
                assert_eq!(outcome, Outcome::Passed, "{kind:?}");
                true
            }
            (Kind::Changed(change), Outcome::Failed(difference, _)) => is_meant(change, difference),
            (Kind::AnyMaster, Outcome::Refused(refused)) => refused.side == Side::Master,
            (Kind::AnyOther, Outcome::Refused(refused)) => refused.side == Side::Other,
            (Kind::Damaged, outcome) => outcome != Outcome::Passed,
            _ => false,
        };
        meant[index % Kind::ALL.len()] += u32::from(is_meant);
    }
    for (kind, meant) in Kind::ALL.iter().zip(meant) {
        assert!(meant > 4, "{kind:?} {meant}");
    }
}

#[test]
fn refusals_come_in_their_order() {
    let mut comparisons = Comparisons::new(1);
    let [tune, refused] = ["tune-1", "refused-16"].map(example);
    for (files, side, number, place) in [
        ([&refused, &refused], Side::Master, 16, 20),
        ([&tune, &refused], Side::Other, 16, 20),
        ([&tune, &tune], Side::Other, 21, 0),
    ] {
        let outcome = comparisons.compare(files.map(|file| file.as_slice()), [3, 4]);
        let refusal = Refusal { number, place };
        assert_eq!(outcome, Ok(Outcome::Refused(RefusedFile { side, refusal })));
    }
}

#[test]
fn vectors_have_every_answer() {
    let vectors = vectors::choose(300, 1).unwrap();
    assert_eq!(vectors.len(), 300);
    let answers = |file| {
        let vectors = vectors.iter().filter(move |vector| vector.file == file);
        vectors.map(|vector| (vector.refusal[0], vector.passed))
    };
    for passed in [false, true] {
        assert!(answers(0).any(|answer| answer == (0, passed)));
    }
    for file in [1, 2] {
        for number in [21, 24] {
            assert!(answers(file).any(|answer| answer == (number, false)));
        }
        assert!(answers(file).any(|(number, _)| number < 21));
    }
    let bytes = vectors::to_bytes(&vectors);
    assert!(bytes.ends_with(&[0xFF; 4]));
    let files: usize = vectors
        .iter()
        .flat_map(|vector| &vector.files)
        .map(Vec::len)
        .sum();
    assert_eq!(bytes.len(), files + 300 * 40 + 4);
}
