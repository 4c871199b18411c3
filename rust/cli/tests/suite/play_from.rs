//! `sgub play --from`

use crate::{directory, expect, root, run, sgub, with_input};
use std::fs;
use std::process::Stdio;

/// 130 frames, of which every fourth has three writes; in the opening 257. It does not repeat.
const SCALE: &str = "examples/scale-2.sgub";
const INDEX: &str = "examples/scale-2.sgub.index";

/// What the command prints, with status 0.
#[track_caller]
fn played(arguments: &[&str]) -> String {
    let output = sgub([&["play"], arguments].concat()).output().unwrap();
    assert_eq!(String::from_utf8_lossy(&output.stderr), "");
    assert_eq!(output.status.code(), Some(0));
    String::from_utf8(output.stdout).unwrap()
}

/// The vsyncs of a text, each without its number.
fn vsyncs(text: &str) -> Vec<String> {
    let vsyncs = text.split("vsync ").skip(1);
    let numbered = vsyncs.map(|vsync| vsync.split_once(' ').unwrap());
    let numbers: Vec<usize> = numbered
        .clone()
        .map(|(number, _)| number.parse().unwrap())
        .collect();
    assert!(numbers.iter().copied().eq(1..=numbers.len()));
    numbered.map(|(_, rest)| rest.to_owned()).collect()
}

/// From a frame to the last and the closing writes, as the whole pass has them, with numbers that count from 1.
#[test]
fn it_goes_on_from_the_frame_as_usual() {
    let whole = vsyncs(&played(&[SCALE]));
    assert_eq!(whole.len(), 131);
    for from in [2, 5, 64, 65, 66, 128, 129, 130] {
        let text = played(&["--from", &from.to_string(), SCALE]);
        assert_eq!(vsyncs(&text), whole[from - 1..], "{from}");
    }
}

/// Frame 1 without the opening, which is in the first vsync of the whole pass.
#[test]
fn the_opening_is_not_played() {
    let frame = "vsync 1 3 complete\n0 2048 184\n0 2049 1\n0 2073 1\n";
    let text = played(&["--from", "1", "--vsyncs", "1", SCALE]);
    assert_eq!(text, frame);
    let text = played(&["--from", "1", SCALE]);
    assert!(text.starts_with(frame));
    assert_eq!(vsyncs(&text).len(), 131);
}

/// Of a repeating file to the last frame; `--vsyncs` goes on with frame 1.
#[test]
fn a_repeating_file_ends_with_its_last_frame() {
    let file = "examples/bank-3.sgub";
    let last = "vsync 1 1 complete\n0 2051 0\n";
    assert_eq!(played(&["--from", "2", file]), last);
    let both = format!("{last}vsync 2 1 complete\n3 33554431 1\n");
    assert_eq!(played(&["--from", "2", "--vsyncs", "2", file]), both);
    assert_eq!(played(&["--from", "2", "--vsyncs", "0", file]), "");
}

#[test]
fn an_index_makes_no_difference() {
    let without = played(&["--from", "65", SCALE]);
    assert_eq!(played(&["--from", "65", "--index", INDEX, SCALE]), without);
    assert_eq!(played(&["--index", INDEX, SCALE, "--from", "65"]), without);
    assert_eq!(played(&["--from", "0065", SCALE]), without);
    let file = fs::read(root().join(SCALE)).unwrap();
    let index = fs::read(root().join(INDEX)).unwrap();
    for (input, arguments) in [
        (&file, &["play", "--from", "65", "-"][..]),
        (&file, &["play", "--from", "65", "--index", INDEX, "-"]),
        (&index, &["play", "--from", "65", "--index", "-", SCALE]),
    ] {
        let output = with_input(&mut sgub(arguments), input);
        expect(&output, 0, &without, "");
    }
}

#[test]
fn a_summary_counts_from_the_frame() {
    let table = "  vsync    writes  twice as many: a # more  target:writes
      1         3  ##                       0:3
      2         0
      3        32  ######                   0:16 1:16
    all        35  ######                   0:19 1:16
";
    assert_eq!(played(&["--summary", "--from", "129", SCALE]), table);
}

/// Frame 0, the count and one more, and numbers that no u32 holds.
#[test]
fn a_frame_that_is_not_there_is_27() {
    let above = "99999999999999999999999999";
    for from in ["0", "131", "4294967295", "4294967296", above] {
        for options in [&[][..], &["--index", INDEX], &["--summary"]] {
            let arguments = [&["play", "--from", from, SCALE], options].concat();
            run(&arguments, 1, "refused 27 0\n", "");
        }
    }
    played(&["--from", "130", SCALE]);
}

/// One that is damaged, another file's, none at all; and the frame number is not looked at then.
#[test]
fn another_index_is_26() {
    let folder = directory("play-from-index");
    let empty = folder.join("empty");
    fs::write(&empty, b"").unwrap();
    let other = folder.join("other");
    let output = sgub(["index", "examples/tune-2.sgub"]).arg(&other).output();
    expect(&output.unwrap(), 0, "indexed 16\n", "");
    let [empty, other] = [&empty, &other].map(|path| path.to_str().unwrap());
    for index in ["examples/refused-26.index", empty, other, SCALE] {
        for from in ["1", "0", "4294967296"] {
            let arguments = ["play", "--from", from, "--index", index, SCALE];
            run(&arguments, 1, "refused 26 0\n", "");
        }
    }
}

/// The file's own refusal comes first.
#[test]
fn a_refused_file_is_not_played() {
    for (from, index) in [("1", INDEX), ("0", "examples/refused-26.index")] {
        let file = "examples/refused-16.sgub";
        run(&["play", "--from", from, file], 1, "refused 16 20\n", "");
        let arguments = ["play", "--from", from, "--index", index, file];
        run(&arguments, 1, "refused 16 20\n", "");
    }
}

/// A file or an index that cannot be read is status 2, whatever the other is.
#[test]
fn what_cannot_be_read_is_said_before_any_verdict() {
    let missing = "could not run: No such file or directory (os error 2)";
    for file in [SCALE, "examples/refused-16.sgub"] {
        let arguments = ["play", "--from", "0", "--index", "none", file];
        run(&arguments, 2, "", &format!("sgub: none: {missing}\n"));
        let arguments = ["play", "--from", "0", "--index", "examples", file];
        let message = "sgub: examples: could not run: Is a directory (os error 21)\n";
        run(&arguments, 2, "", message);
    }
    for index in [INDEX, "examples/refused-26.index", "gone"] {
        let arguments = ["play", "--from", "1", "--index", index, "none"];
        run(&arguments, 2, "", &format!("sgub: none: {missing}\n"));
    }
    run(
        &["play", "--from", "0", "none"],
        2,
        "",
        &format!("sgub: none: {missing}\n"),
    );
}

/// The output is longer than a pipe holds, so that the command notices.
#[test]
fn a_reader_that_goes_away_is_told_nothing() {
    let mut command = sgub([
        "play",
        "--from",
        "1",
        "--vsyncs",
        "100000",
        "examples/bank-3.sgub",
    ]);
    command.stdout(Stdio::piped()).stderr(Stdio::piped());
    let mut child = command.spawn().unwrap();
    drop(child.stdout.take());
    expect(&child.wait_with_output().unwrap(), 2, "", "");
}

/// The words of the two refusals say what helps.
#[test]
fn the_refusals_are_explained() {
    for (number, words) in [
        ("26", "\n  sgub index FILE [INDEX]\n"),
        ("27", "\n  accepted VERSION FRAMES OPENING\n"),
    ] {
        let output = sgub(["explain", number]).output().unwrap();
        let text = String::from_utf8(output.stdout).unwrap();
        assert!(text.contains(words), "{text}");
    }
}
