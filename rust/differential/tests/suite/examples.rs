//! The files of examples/ are those that the values make, and those that are refused are refused by their numbers.

use differential::examples::{self, Example};
use differential::verdicts;
use std::fs;
use std::path::Path;

#[test]
fn the_stored_examples_are_made_from_values() {
    let directory = Path::new(env!("CARGO_MANIFEST_DIR")).join("../../examples");
    for (ending, examples) in [
        ("sgub", examples::all()),
        ("index", examples::all_indexes()),
    ] {
        let count = examples.len();
        for Example { name, file } in examples {
            let path = directory.join(format!("{name}.{ending}"));
            assert!(fs::read(&path).unwrap() == file, "{name}");
        }
        let files = fs::read_dir(&directory).unwrap().filter(|entry| {
            let path = entry.as_ref().unwrap().path();
            path.extension().is_some_and(|found| found == ending)
        });
        assert_eq!(files.count(), count);
    }
}

/// The index of the scale is the library's too, and the damaged one is not.
#[test]
fn the_indexes_are_a_right_and_a_wrong_one() {
    let scale = examples::example("scale-2");
    let own = sgub::build_index(&scale).unwrap();
    let indexes = examples::all_indexes();
    let is_own: Vec<bool> = indexes.iter().map(|index| index.file == own).collect();
    assert_eq!(is_own, [true, false]);
    assert_eq!(own.len(), 24);
}

/// Library and original refuse the file `refused-N`, and N is the library's number; there is one for each of 1 to 20.
#[test]
fn each_refused_example_breaks_the_rule_of_its_name() {
    let mut numbers = Vec::new();
    for Example { name, file } in examples::all() {
        let verdict = verdicts::verdict(&file).unwrap();
        match name.strip_prefix("refused-") {
            Some(number) => {
                let number = number.parse().unwrap();
                assert_eq!(verdict.unwrap_err().number, number, "{name}");
                numbers.push(number);
            }
            None => assert!(verdict.is_ok(), "{name}"),
        }
    }
    assert!(numbers.into_iter().eq(1..=20));
}
