//! Standard input as a file: closed, given twice, or not to be read. Each command reads it in the same way.

use crate::{directory, expect, root, run, sgub};
use std::fs::{self, File};
use std::process::Command;

/// The commands with standard input for a file.
const COMMANDS: [&[&str]; 10] = [
    &["check", "-"],
    &["explain", "-"],
    &["play", "-"],
    &["play", "--summary", "-"],
    &["play", "--from", "1", "-"],
    &[
        "play",
        "--from",
        "1",
        "--index",
        "-",
        "examples/scale-2.sgub",
    ],
    &["index", "-", "result"],
    &["repack", "-", "result"],
    &["compare", "-", "examples/tune-2.sgub"],
    &["compare", "examples/tune-1.sgub", "-"],
];

/// A file that is closed is not an empty one, which has a verdict.
#[test]
fn closed_standard_input_could_not_run() {
    let script = "exec \"$0\" \"$@\" <&-";
    let message = "sgub: -: could not run: standard input is closed\n";
    let closed = |arguments: &[&str]| {
        Command::new("sh")
            .args(["-c", script, env!("CARGO_BIN_EXE_sgub")])
            .args(arguments)
            .current_dir(root())
            .output()
            .unwrap()
    };
    for arguments in COMMANDS {
        expect(&closed(arguments), 2, "", message);
    }
    let others = closed(&["check", "-", "examples/empty-1.sgub"]);
    let line = "examples/empty-1.sgub: accepted 1 1 0\n";
    expect(&others, 2, line, message);
    // A command that does not read it does not ask for it.
    let without = closed(&["check", "examples/empty-1.sgub"]);
    expect(&without, 0, "accepted 1 1 0\n", "");
    assert!(!root().join("result").exists());
}

#[test]
fn an_empty_standard_input_is_an_empty_file() {
    let empty = directory("input-empty").join("empty");
    fs::write(&empty, b"").unwrap();
    for input in [empty.to_str().unwrap(), "/dev/null"] {
        let input = File::open(input).unwrap();
        let output = sgub(["check", "-"]).stdin(input).output().unwrap();
        expect(&output, 1, "refused 1 0\n", "");
    }
}

#[test]
fn standard_input_is_not_read_twice() {
    let message = "sgub: standard input is one file, not two; 'sgub help' lists the commands\n";
    for arguments in [
        &["check", "-", "-"][..],
        &["check", "-", "examples/empty-1.sgub", "--", "-"],
        &["compare", "-", "-"],
        &["play", "--from", "1", "--index", "-", "-"],
    ] {
        run(arguments, 2, "", message);
    }
}

/// A folder, and a file that is open for writing only.
#[test]
fn standard_input_that_cannot_be_read_could_not_run() {
    let folder = directory("input-unreadable");
    let file = folder.join("file");
    for (path, reason) in [
        (&folder, "Is a directory (os error 21)"),
        (&file, "Bad file descriptor (os error 9)"),
    ] {
        let message = format!("sgub: -: could not run: {reason}\n");
        for arguments in COMMANDS {
            let input = if path == &folder {
                File::open(path)
            } else {
                File::create(path)
            };
            let mut command = sgub(arguments);
            let output = command.stdin(input.unwrap()).output().unwrap();
            expect(&output, 2, "", &message);
        }
    }
    assert!(!root().join("result").exists());
}
