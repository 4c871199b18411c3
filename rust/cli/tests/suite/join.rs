//! `sgub join`. Where a result may go is tested in `result`, with `sgub repack`; here that joining asks the same module, for both inputs.

use crate::result::{P7, holds};
use crate::{P3, directory, expect, run, sgub, with_input};
use std::fs::{self, File};
use std::path::{Path, PathBuf};
use std::process::Command;

/// P7 with itself behind it: two empty frames.
const TWICE: &[u8] = b"SGUB\x02\x10\0\0\0\0\0\x02\0\0\0\0\0\0\0\0\0\0\0\x28\
    \0\0\0\x28\0\0\0\x28\0\0\0\x2C\0\x28\0\0\0\0\0\0";

/// The longest result, 0xE00000.
const LONGEST: usize = 14_680_064;

/// P7 with so many empty frames.
fn frames(count: u32) -> Vec<u8> {
    let size = 40 + 2 * count;
    let mut file = P7.to_vec();
    file[8..12].copy_from_slice(&count.to_be_bytes());
    file[32..36].copy_from_slice(&size.to_be_bytes());
    file.resize(size as usize, 0);
    file
}

/// P7 with an opening of so many WRITEs of 0 to core 0.
fn opening(count: u32) -> Vec<u8> {
    let start = 40 + 6 * count;
    let mut file = P7.to_vec();
    file[16..20].copy_from_slice(&count.to_be_bytes());
    file[28..32].copy_from_slice(&start.to_be_bytes());
    file[32..36].copy_from_slice(&(start + 2).to_be_bytes());
    file.resize(start as usize + 2, 0);
    file
}

/// P7 with so many PCM pools of one byte.
fn pools(count: u32) -> Vec<u8> {
    let payloads = 40 + 16 * count;
    let start = payloads + count;
    let mut file = P7[..40].to_vec();
    file[12..16].copy_from_slice(&count.to_be_bytes());
    for (at, place) in [(24, start), (28, start), (32, start + 2)] {
        file[at..at + 4].copy_from_slice(&place.to_be_bytes());
    }
    for id in 0..count {
        file.extend((id as u16).to_be_bytes());
        file.extend([2, 0, 0, 0, 0, 1, 0, 0, 0, 1]);
        file.extend((payloads + id).to_be_bytes());
    }
    file.resize(start as usize + 2, 0);
    file
}

/// A folder with P7 under the name `two`, P3 as `one`, and a file that is cut off.
fn folder(test: &str) -> PathBuf {
    let folder = directory(test);
    for (name, file) in FILES {
        fs::write(folder.join(name), file).unwrap();
    }
    folder
}

const FILES: [(&str, &[u8]); 3] = [("cut", P7.split_at(41).0), ("one", P3), ("two", P7)];

/// The folder has its files and these behind them.
#[track_caller]
fn holds_also(folder: &Path, others: &[(&str, &[u8])]) {
    let mut files = [&FILES[..], others].concat();
    files.sort();
    holds(folder, &files);
}

fn join(folder: &Path, arguments: &[&str]) -> Command {
    let mut command = sgub(["join"]);
    command.args(arguments).current_dir(folder);
    command
}

#[track_caller]
fn joins(folder: &Path, arguments: &[&str], status: i32, stdout: &str, stderr: &str) {
    let output = join(folder, arguments).output().unwrap();
    expect(&output, status, stdout, stderr);
}

#[test]
fn a_result_is_made() {
    let folder = folder("join-made");
    joins(&folder, &["two", "two", "result"], 0, "joined 44\n", "");
    joins(&folder, &["--", "two", "two", "-x"], 0, "joined 44\n", "");
    holds_also(&folder, &[("-x", TWICE), ("result", TWICE)]);
    // Either file may be standard input.
    for arguments in [["--force", "-", "two", "-x"], ["--force", "two", "-", "-x"]] {
        let arguments = [&arguments[..1], &["--"], &arguments[1..]].concat();
        let output = with_input(&mut join(&folder, &arguments), P7);
        expect(&output, 0, "joined 44\n", "");
    }
    holds_also(&folder, &[("-x", TWICE), ("result", TWICE)]);
}

/// The scale with the tune behind it plays the vsyncs of both, and the end.
#[test]
fn a_joined_file_is_played() {
    let folder = directory("join-played");
    let result = folder.join("result");
    let result = result.to_str().unwrap();
    let [scale, tune] = ["examples/scale-2.sgub", "examples/tune-2.sgub"];
    run(&["join", scale, tune, result], 0, "joined 1577\n", "");
    run(&["check", result], 0, "accepted 2 133 2\n", "");
    let output = sgub(["play", result]).output().unwrap();
    let text = String::from_utf8(output.stdout).unwrap();
    let mut vsyncs = text.lines().filter(|line| line.starts_with("vsync"));
    assert_eq!(vsyncs.next_back().unwrap().split(' ').nth(1), Some("134"));
}

#[test]
fn a_refusal_names_the_file_and_leaves_the_result_as_it_was() {
    let folder = folder("join-refused");
    fs::write(folder.join("result"), b"old").unwrap();
    for (first, second, line) in [
        ("one", "two", "refused first 21 0\n"),
        ("cut", "two", "refused first 8 0\n"),
        ("one", "cut", "refused first 21 0\n"),
        ("cut", "one", "refused first 8 0\n"),
        ("two", "one", "refused second 21 0\n"),
        ("two", "cut", "refused second 8 0\n"),
    ] {
        joins(&folder, &[first, second, "new"], 1, line, "");
        let replace = ["--force", first, second, "result"];
        joins(&folder, &replace, 1, line, "");
        holds_also(&folder, &[("result", b"old")]);
    }
}

#[test]
fn a_refusal_of_both_together_names_none() {
    let folder = folder("join-together");
    let files = [
        ("opening", opening(65_536)),
        ("pools", pools(65_536)),
        ("pool", pools(1)),
        ("long", frames((LONGEST as u32 - 40) / 2)),
    ];
    for (name, file) in &files {
        fs::write(folder.join(name), file).unwrap();
        run(
            &["check", folder.join(name).to_str().unwrap()],
            0,
            &line(file),
            "",
        );
    }
    for (first, second, line) in [
        ("two", "opening", "refused 29 0\n"),
        ("long", "opening", "refused 29 0\n"),
        ("pools", "pool", "refused 30 0\n"),
        ("pool", "pools", "refused 30 0\n"),
        ("long", "two", "refused 23 0\n"),
        ("two", "long", "refused 23 0\n"),
    ] {
        joins(&folder, &[first, second, "result"], 1, line, "");
        assert!(!folder.join("result").exists());
    }
    // As many pools as there may be, and the opening where it stays one.
    joins(
        &folder,
        &["pools", "two", "result"],
        0,
        "joined 1114156\n",
        "",
    );
    let arguments = ["--force", "opening", "two", "result"];
    joins(&folder, &arguments, 0, "joined 393260\n", "");
}

/// What `sgub check` prints for one of these files.
fn line(file: &[u8]) -> String {
    let number = |at: usize| {
        let bytes = file[at..at + 4].try_into().unwrap();
        u32::from_be_bytes(bytes)
    };
    format!("accepted 2 {} {}\n", number(8), number(16))
}

#[test]
fn the_longest_result_is_made() {
    let folder = folder("join-longest");
    let half = frames((LONGEST as u32 - 40) / 4);
    fs::write(folder.join("half"), &half).unwrap();
    let arguments = ["half", "half", "result"];
    joins(&folder, &arguments, 0, "joined 14680064\n", "");
    let expected = frames((LONGEST as u32 - 40) / 2);
    assert!(fs::read(folder.join("result")).unwrap() == expected);
    let message = "sgub: result: could not be written: it is there already, \
                   and only --force replaces it\n";
    joins(&folder, &arguments, 2, "", message);
    joins(&folder, &["result", "two", "new"], 1, "refused 23 0\n", "");
}

/// Both files are read before one is judged, and none where the result may not be written.
#[test]
fn a_file_that_cannot_be_read_is_a_failure() {
    let folder = folder("join-unread");
    let missing = "could not run: No such file or directory (os error 2)";
    for (first, second, name) in [
        ("none", "two", "none"),
        ("none", "cut", "none"),
        ("none", "none-2", "none"),
        ("two", "none-2", "none-2"),
        ("one", "none-2", "none-2"),
        ("cut", "none-2", "none-2"),
    ] {
        let message = format!("sgub: {name}: {missing}\n");
        joins(&folder, &[first, second, "result"], 2, "", &message);
        holds_also(&folder, &[]);
    }
    let message = "sgub: one: could not be written: it is there already, \
                   and only --force replaces it\n";
    for [first, second] in [["none", "cut"], ["two", "two"]] {
        joins(&folder, &[first, second, "one"], 2, "", message);
    }
    holds_also(&folder, &[]);
}

#[test]
fn a_file_that_is_there_is_replaced_only_by_force() {
    let folder = folder("join-force");
    fs::write(folder.join("result"), b"old").unwrap();
    let message = "sgub: result: could not be written: it is there already, \
                   and only --force replaces it\n";
    joins(&folder, &["two", "two", "result"], 2, "", message);
    holds_also(&folder, &[("result", b"old")]);
    for arguments in [
        ["--force", "two", "two", "result"],
        ["two", "two", "result", "--force"],
        ["two", "--force", "two", "new"],
    ] {
        joins(&folder, &arguments, 0, "joined 44\n", "");
    }
    holds_also(&folder, &[("new", TWICE), ("result", TWICE)]);
}

#[test]
fn a_result_that_is_an_input_is_a_wrong_call() {
    let folder = folder("join-input");
    fs::write(folder.join("other"), P7).unwrap();
    fs::hard_link(folder.join("two"), folder.join("hard")).unwrap();
    let files: [(&str, &[u8]); 2] = [("hard", P7), ("other", P7)];
    for (first, second, result) in [
        ("two", "other", "two"),
        ("other", "two", "two"),
        ("two", "two", "two"),
        ("two", "other", "./two"),
        ("two", "other", "hard"),
        ("other", "two", "hard"),
        // Also where a file is refused, or is not there.
        ("two", "cut", "two"),
        ("none", "two", "two"),
    ] {
        let message = format!(
            "sgub: {result}: the result would replace a file that is read; \
             'sgub help' lists the commands\n"
        );
        joins(&folder, &[first, second, result], 2, "", &message);
        let force = ["--force", first, second, result];
        joins(&folder, &force, 2, "", &message);
        holds_also(&folder, &files);
    }
    for arguments in [
        ["--force", "-", "other", "two"],
        ["--force", "other", "-", "two"],
    ] {
        let input = File::open(folder.join("two")).unwrap();
        let output = join(&folder, &arguments).stdin(input).output().unwrap();
        let message = "sgub: two: the result would replace a file that is read; \
                       'sgub help' lists the commands\n";
        expect(&output, 2, "", message);
    }
    holds_also(&folder, &files);
}

#[test]
fn bad_usage_is_status_2() {
    let folder = folder("join-usage");
    let files = "join takes two files and a result";
    for (arguments, message) in [
        (&[][..], files),
        (&["two"], files),
        (&["two", "two"], files),
        (&["--force", "two", "two"], files),
        (&["two", "two", "result", "more"], files),
        (&["--all", "two", "two", "result"], "no option --all"),
        (&["-", "-", "result"], "standard input is one file, not two"),
        (&["two", "two", "-"], "a result needs a name, and - is none"),
        (&["-", "two", "-"], "a result needs a name, and - is none"),
    ] {
        let message = format!("sgub: {message}; 'sgub help' lists the commands\n");
        joins(&folder, arguments, 2, "", &message);
    }
    holds_also(&folder, &[]);
}
