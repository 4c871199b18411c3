//! The library's jumps against the original played from its start, and what is stored of them.

use differential::generators::shapes::Shape;
use differential::generators::{Choice, Family, Generator};
use differential::jumps::script::{Call, Script, Step};
use differential::jumps::{Counts, Jumps, vectors};
use differential::model::weight;
use std::fs;
use std::path::Path;

#[test]
fn library_and_original_go_on_alike_behind_a_jump() {
    let mut jumps = Jumps::new(11);
    for shape in [None, Some(Shape::ManyFrames)] {
        let choice = Choice {
            shape,
            ..Choice::of(Family::Valid)
        };
        let mut generator = Generator::new(11, choice);
        for _ in 0..1_500 {
            let file = generator.next_file();
            if weight::writes(file) < 50_000 {
                let answer = jumps.jump(file);
                answer.unwrap_or_else(|text| panic!("{text}: {file:02x?}"));
            }
        }
    }
    let counts = jumps.counts();
    assert!(counts.all_occurred(), "{counts:?}");
}

/// The data of crates/test_jumps is what `differential jump-vectors` writes.
#[test]
fn the_stored_scripts_are_these() {
    let data = Path::new(env!("CARGO_MANIFEST_DIR")).join("../../crates/test_jumps/data");
    let scripts = vectors::choose(240, 1).unwrap();
    let stored = fs::read(data.join("jumps.bin")).unwrap();
    assert!(stored == vectors::to_bytes(&scripts));
    let mut counts = Counts::default();
    for script in &scripts {
        counts.count(script);
    }
    assert!(counts.all_occurred(), "{counts:?}");
}

/// What a test of a jump has to have, each in some script: its own index or a damaged one, to frame 0, to the last frame and to the one
/// behind it; and another file with the same header, whose index is the same or is not.
#[test]
fn the_stored_scripts_have_the_cases_that_matter() {
    let scripts = vectors::choose(240, 1).unwrap();
    let cases: [(&str, Case); 7] = [
        ("the last frame", |script, _, jump| {
            jump.number == 0 && jump.frame == frame_count(script, jump.file)
        }),
        ("the frame behind it", |script, _, jump| {
            jump.number == 27 && jump.frame == frame_count(script, jump.file) + 1
        }),
        ("frame 0", |_, _, jump| jump.number == 27 && jump.frame == 0),
        ("a damaged index", |_, step, jump| {
            jump.number == 26 && jump.is_changed && step.file.change.is_none()
        }),
        ("a short index", |script, _, jump| {
            jump.number == 26 && jump.length < script.indexes[jump.index].len()
        }),
        ("another file with the same index", |script, _, jump| {
            jump.number == 0 && jump.file == 1 && script.indexes[0] == script.indexes[1]
        }),
        ("another file with another index", |script, _, jump| {
            jump.number == 0 && jump.file == 1 && script.indexes[0] != script.indexes[1]
        }),
    ];
    for (name, case) in cases {
        let is_case = |script: &Script, step: &Step| {
            Jump::of(step).is_some_and(|jump| case(script, step, jump))
        };
        let found = scripts
            .iter()
            .any(|script| script.steps.iter().any(|step| is_case(script, step)));
        assert!(found, "{name}");
    }
}

/// Whether a step of a script is a case.
type Case = fn(&Script, &Step, Jump) -> bool;

/// A step that is a jump.
#[derive(Clone, Copy)]
struct Jump {
    file: usize,
    index: usize,
    length: usize,
    is_changed: bool,
    frame: u32,
    number: u32,
}

impl Jump {
    fn of(step: &Step) -> Option<Self> {
        let Call::Jump(index, frame) = step.call else {
            return None;
        };
        Some(Self {
            file: step.file.which,
            index: index.which,
            length: index.length,
            is_changed: index.change.is_some(),
            frame,
            number: step.answer.refusal.map_or(0, |refusal| refusal.number),
        })
    }
}

/// The number of frames that a file's header gives.
fn frame_count(script: &Script, which: usize) -> u32 {
    let bytes = script.files[which][8..12].try_into().unwrap();
    u32::from_be_bytes(bytes)
}
