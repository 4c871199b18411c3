//! Pitches through the wrapper.

use sgub::{Refusal, frequency};

const REFUSED: Result<u16, Refusal> = Err(Refusal {
    number: 28,
    place: 0,
});

#[test]
fn pitches_are_those_of_the_sums() {
    for (note, semitones, pitch) in [
        (0, -48, 1),
        (0, 0, 8),
        (21, 0, 28),
        (60, 0, 262),
        (69, 0, 440),
        (69, 1, 466),
        (69, -1, 415),
        (127, 0, 12_544),
        (107, 48, 63_217),
        (108, 48, 65_535),
        (127, 48, 65_535),
    ] {
        assert_eq!(frequency(note, semitones), Ok(pitch), "{note} {semitones}");
    }
    // A pitch is its sum's.
    for note in 0..=127 {
        let other = 127 - note;
        if let Ok(shift @ -48..=48) = i8::try_from(i16::from(other) - i16::from(note)) {
            assert_eq!(frequency(note, shift), frequency(other, 0));
        }
    }
}

#[test]
fn out_of_range_is_28() {
    for note in 128..=u8::MAX {
        assert_eq!(frequency(note, 0), REFUSED);
    }
    for semitones in (i8::MIN..=-49).chain(49..=i8::MAX) {
        assert_eq!(frequency(69, semitones), REFUSED);
    }
    assert_eq!(frequency(128, 49).unwrap_err().to_string(), "refused 28 0");
}
