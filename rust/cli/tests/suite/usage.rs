//! Commands that are not understood, and those that say what there is.

use crate::{run, sgub};

#[track_caller]
fn refused(arguments: &[&str], message: &str) {
    let message = format!("sgub: {message}; 'sgub help' lists the commands\n");
    run(arguments, 2, "", &message);
}

#[test]
fn bad_usage_is_status_2() {
    refused(&[], "no command");
    refused(&["chek", "examples/empty-1.sgub"], "no command chek");
    refused(&["check"], "check needs a file");
    refused(
        &["check", "--all", "examples/empty-1.sgub"],
        "no option --all",
    );
    refused(&["check", "--"], "check needs a file");
    refused(&["explain"], "explain takes one file or one number");
    refused(
        &["explain", "examples/empty-1.sgub", "examples/empty-2.sgub"],
        "explain takes one file or one number",
    );
    refused(
        &["explain", "--al", "examples/empty-1.sgub"],
        "no option --al",
    );
    refused(&["join"], "join takes two files and a result");
    refused(&["join", "--al", "x", "y", "z"], "no option --al");
    refused(&["play"], "play takes one file");
    refused(&["play", "--sum", "x"], "no option --sum");
    refused(
        &["play", "x", "--vsyncs"],
        "--vsyncs needs a number from 0 to 18446744073709551615",
    );
    for from in [
        &["--from"][..],
        &["--from", "-1"],
        &["--from", "+1"],
        &["--from", ""],
        &["--from", "1x"],
    ] {
        refused(
            &[&["play", "x"], from].concat(),
            "--from needs the number of a frame",
        );
    }
    refused(
        &["play", "x", "--from", "1", "--index"],
        "--index needs a file",
    );
    refused(&["play", "x", "--index", "y"], "--index is for --from");
    for run in ["0", "-1", "16777217", "x"] {
        refused(
            &["play", "--run", run, "x"],
            "--run needs a number from 1 to 16777216",
        );
    }
}

#[test]
fn help_names_every_command() {
    let output = sgub(["help"]).output().unwrap();
    let text = String::from_utf8(output.stdout).unwrap();
    for command in [
        "check FILE...",
        "explain [--all] FILE",
        "explain NUMBER",
        "play [OPTION]... FILE",
        "index FILE [INDEX]",
        "repack MASTER RESULT",
        "compare MASTER OTHER",
        "join FIRST SECOND RESULT",
        "pitch NOTE [SHIFT]",
        "pitch",
        "help",
        "--version",
    ] {
        let is_there = |end| text.contains(&format!("  sgub {command}{end}"));
        assert!(is_there(' ') || is_there('\n'), "{command}");
    }
    assert_eq!(output.status.code(), Some(0));
    for alias in ["--help", "-h"] {
        run(&[alias], 0, &text, "");
    }
}

#[test]
fn the_version_is_printed() {
    run(
        &["--version"],
        0,
        concat!("sgub ", env!("CARGO_PKG_VERSION"), "\n"),
        "",
    );
}
