//! The comparison by the wrapper: pass and fail, each refusal with its file, and what happens to the images.

use sgub::{Comparison, IMAGE_SIZE, Refusal, RefusedFile, Side, compare, repack_to_vec};
use std::fs;
use std::path::Path;

fn example(name: &str) -> Vec<u8> {
    let examples = Path::new(env!("CARGO_MANIFEST_DIR")).join("../../examples");
    fs::read(examples.join(name)).unwrap()
}

/// The comparison with two images of the least size, and the images.
type Answer = Result<Comparison, RefusedFile>;

fn compared(master: &[u8], other: &[u8]) -> (Answer, [Vec<u8>; 2]) {
    let mut images = [(); 2].map(|()| vec![0xA5; IMAGE_SIZE]);
    let [master_image, other_image] = &mut images;
    let answer = compare(master, other, master_image, other_image);
    (answer, images)
}

#[test]
fn a_master_and_its_repacking_pass() {
    for name in ["empty-1.sgub", "tune-1.sgub"] {
        let master = example(name);
        let repacked = repack_to_vec(&master).unwrap();
        assert_eq!(compared(&master, &repacked).0, Ok(Comparison::Passed));
    }
    let (answer, images) = compared(&example("tune-1.sgub"), &example("tune-2.sgub"));
    assert_eq!(answer, Ok(Comparison::Passed));
    for image in images {
        let (front, rest) = image.split_at(8);
        assert_eq!(front, [0x80, 0x88, 0x90, 0x98, 0xA0, 0xA8, 0xB0, 0xB8]);
        assert!(rest.iter().all(|byte| *byte == 0x80));
    }
}

/// One byte of the other file is another: its repeat, the value of the opening's FILL, a WRITE of the opening, the wave, and the last
/// byte. In rust/cli a test says where each of them is told to differ.
#[test]
fn one_other_byte_fails() {
    let master = example("tune-1.sgub");
    for (at, value) in [(6, 1), (0x159, 0x81), (0x15F, 0xC1), (87, 15), (0x1AD, 2)] {
        let mut other = example("tune-2.sgub");
        assert_ne!(other[at], value);
        other[at] = value;
        assert_eq!(compared(&master, &other).0, Ok(Comparison::Failed));
    }
}

#[test]
fn a_refusal_names_its_file_and_writes_nothing() {
    let (master, other) = (example("empty-1.sgub"), example("empty-2.sgub"));
    let refused = example("refused-16.sgub");
    for (first, second, side, number, place) in [
        (&refused, &other, Side::Master, 16, 20),
        (&refused, &refused, Side::Master, 16, 20),
        (&master, &refused, Side::Other, 16, 20),
        (&other, &refused, Side::Master, 21, 0),
        (&master, &master, Side::Other, 21, 0),
        (&master, &example("bank-3.sgub"), Side::Other, 21, 0),
        (&Vec::new(), &other, Side::Master, 1, 0),
    ] {
        let refusal = Refusal { number, place };
        let expected = Err(RefusedFile { side, refusal });
        let (answer, images) = compared(first, second);
        assert_eq!(answer, expected);
        let words = answer.unwrap_err().to_string();
        assert_eq!(words, format!("refused {side} {number} {place}"));
        assert!(images.iter().flatten().all(|byte| *byte == 0xA5));
        // It comes before 24.
        assert_eq!(compare(first, second, &mut [], &mut []), expected);
    }
}

#[test]
fn a_short_image_is_24_and_bytes_behind_an_image_stay() {
    let (master, other) = (example("tune-1.sgub"), example("tune-2.sgub"));
    let (number, place) = (24, 0);
    let refusal = Refusal { number, place };
    let short = |side| Err(RefusedFile { side, refusal });
    for (rooms, answer) in [
        ([IMAGE_SIZE - 1, IMAGE_SIZE], short(Side::Master)),
        ([0, 0], short(Side::Master)),
        ([IMAGE_SIZE, IMAGE_SIZE - 1], short(Side::Other)),
        ([IMAGE_SIZE + 3, 0], short(Side::Other)),
        ([IMAGE_SIZE + 3, IMAGE_SIZE], Ok(Comparison::Passed)),
        ([IMAGE_SIZE, IMAGE_SIZE + 5], Ok(Comparison::Passed)),
    ] {
        let [mut master_image, mut other_image] = rooms.map(|room| vec![0xA5; room]);
        assert_eq!(
            compare(&master, &other, &mut master_image, &mut other_image),
            answer
        );
        for image in [master_image, other_image] {
            let written = match answer {
                Ok(_) => IMAGE_SIZE,
                Err(_) => 0,
            };
            assert!(image[..written].iter().all(|byte| *byte != 0xA5));
            assert!(image[written..].iter().all(|byte| *byte == 0xA5));
        }
    }
}
