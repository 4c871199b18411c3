//! `sgub play`, and the example in C that prints the same

use crate::{P3, directory, expect, root, run, sgub, with_input};
use std::env;
use std::fmt::Write;
use std::path::{Path, PathBuf};
use std::process::Command;

/// The closing writes of both cores.
fn closing() -> String {
    let mut text = String::new();
    for core in 0..2 {
        for channel in 0..8 {
            for register in [3, 0x19] {
                writeln!(text, "{core} {} 0", 0x800 + 32 * channel + register).unwrap();
            }
        }
    }
    text
}

/// P12 of the format sheet: no writes, then 32, then none.
#[test]
fn one_pass_and_the_closing_writes() {
    let pass = format!("vsync 1 0 complete\nvsync 2 32 complete\n{}", closing());
    run(&["play", "examples/empty-1.sgub"], 0, &pass, "");
    let output = with_input(&mut sgub(["play", "-"]), P3);
    expect(&output, 0, &pass, "");
    let more = format!("{pass}vsync 3 0 complete\nvsync 4 0 complete\n");
    run(
        &["play", "--vsyncs", "4", "examples/empty-1.sgub"],
        0,
        &more,
        "",
    );
    run(
        &["play", "examples/empty-1.sgub", "--vsyncs", "0"],
        0,
        "",
        "",
    );
}

#[test]
fn a_vsync_takes_as_many_calls_as_the_run_needs() {
    let closing = closing();
    let (first, second) = closing.split_at(closing.match_indices('\n').nth(19).unwrap().0 + 1);
    let calls =
        format!("vsync 1 0 complete\nvsync 2 20 more\n{first}vsync 2 12 complete\n{second}");
    run(
        &["play", "--run", "20", "examples/empty-1.sgub"],
        0,
        &calls,
        "",
    );
    let output = sgub(["play", "--run", "32", "examples/empty-1.sgub"]).output();
    let text = String::from_utf8(output.unwrap().stdout).unwrap();
    assert_eq!(text.lines().filter(|line| line.starts_with('v')).count(), 2);
}

/// One pass of a repeating file ends with its last frame.
#[test]
fn a_repeating_file_has_no_closing_writes() {
    let output = sgub(["play", "examples/bank-3.sgub"]).output().unwrap();
    let text = String::from_utf8(output.stdout).unwrap();
    let calls: Vec<&str> = text.lines().filter(|line| line.starts_with('v')).collect();
    assert_eq!(calls, ["vsync 1 97 complete", "vsync 2 1 complete"]);
    let output = sgub(["play", "--vsyncs", "4", "examples/bank-3.sgub"]).output();
    let text = String::from_utf8(output.unwrap().stdout).unwrap();
    let calls: Vec<&str> = text.lines().filter(|line| line.starts_with('v')).collect();
    // Frame 1 again, without the opening.
    assert_eq!(calls[2..], ["vsync 3 1 complete", "vsync 4 1 complete"]);
}

#[test]
fn a_summary_counts_by_target() {
    let table = "  vsync    writes  twice as many: a # more  target:writes
      1       269  #########                0:260 1:1 2:8
      2         0
      3         3  ##                       0:3
      4        32  ######                   0:16 1:16
    all       304  #########                0:279 1:17 2:8
";
    run(&["play", "--summary", "examples/tune-1.sgub"], 0, table, "");
    run(
        &["play", "--summary", "--run", "1", "examples/tune-1.sgub"],
        0,
        table,
        "",
    );
}

#[test]
fn a_refused_file_is_not_played() {
    for options in [&["play"][..], &["play", "--summary"]] {
        let arguments = [options, &["examples/refused-16.sgub"]].concat();
        run(&arguments, 1, "refused 16 20\n", "");
    }
    run(
        &["play", "examples/none.sgub"],
        2,
        "",
        "sgub: examples/none.sgub: could not run: No such file or directory (os error 2)\n",
    );
}

/// Compiles `examples/play.c` as its own text says.
fn example(test: &str) -> PathBuf {
    let library = env::var_os("SGUB_LIB_DIR")
        .map_or_else(|| root().join("target/staticlib"), PathBuf::from)
        .join("libsgub.a");
    let program = directory(test).join("play");
    let compiler = env::var_os("CC").unwrap_or_else(|| "cc".into());
    let output = Command::new(compiler)
        .args(["-std=c11", "-Wall", "-Wextra", "-Werror", "-Iinclude"])
        .args([Path::new("examples/play.c"), &library])
        .arg("-o")
        .arg(&program)
        .current_dir(root())
        .output()
        .expect("the example needs a C compiler: cc, or what CC names");
    let errors = String::from_utf8_lossy(&output.stderr);
    assert!(output.status.success(), "{errors}");
    program
}

#[test]
fn the_example_in_c_prints_the_same() {
    let example = example("example");
    for name in [
        "empty-1",
        "tune-1",
        "tune-2",
        "bank-3",
        "cards-4",
        "refused-19",
    ] {
        let file = format!("examples/{name}.sgub");
        let ours = sgub(["play", "--run", "64", &file]).output().unwrap();
        let theirs = Command::new(&example)
            .arg(&file)
            .current_dir(root())
            .output()
            .unwrap();
        let text = String::from_utf8(ours.stdout).unwrap();
        expect(&theirs, ours.status.code().unwrap(), &text, "");
    }
}

/// Only a file that was read to its end has a verdict.
#[test]
fn the_example_in_c_says_what_it_cannot_read() {
    let example = example("example-unread");
    let run = |arguments: &[&str], status, stdout, stderr| {
        let mut command = Command::new(&example);
        let output = command.args(arguments).current_dir(root()).output();
        expect(&output.unwrap(), status, stdout, stderr);
    };
    run(&["/dev/null"], 1, "refused 1 0\n", "");
    let message = "play: examples: could not be read: Is a directory\n";
    run(&["examples"], 2, "", message);
    let message = "play: none: could not be opened: No such file or directory\n";
    run(&["none"], 2, "", message);
    run(&[], 2, "", "usage: play FILE\n");
    run(&["one", "two"], 2, "", "usage: play FILE\n");
}
