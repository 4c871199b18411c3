//! `sgub compare`

use crate::{P3, directory, expect, root, run, sgub, with_input};
use std::fs;

/// The example under this name.
fn example(name: &str) -> String {
    format!("examples/{name}.sgub")
}

#[track_caller]
fn compare(master: &str, other: &str, status: i32, stdout: &str) {
    let [master, other] = [master, other].map(example);
    run(&["compare", &master, &other], status, stdout, "");
}

#[test]
fn the_verdict_is_a_line_and_a_status() {
    compare("empty-1", "empty-2", 0, "passed\n");
    compare("tune-1", "tune-2", 0, "passed\n");
    let counts = "failed\nframe count: master 1, other 3\n";
    compare("empty-1", "tune-2", 1, counts);
    compare("refused-16", "tune-2", 1, "refused master 16 20\n");
    compare("refused-16", "refused-14", 1, "refused master 16 20\n");
    compare("tune-1", "refused-14", 1, "refused other 14 424\n");
    compare("tune-2", "tune-2", 1, "refused master 21 0\n");
    compare("tune-1", "tune-1", 1, "refused other 21 0\n");
}

/// One byte of the repacked tune is another.
#[test]
fn a_failure_says_where() {
    let folder = directory("compare-where");
    let tune = fs::read(root().join(example("tune-2"))).unwrap();
    for (at, value, words) in [
        (6, 1, "repeat: the other repeats, the master does not"),
        (
            0x15F,
            0xC1,
            "opening, core write 1: master 0 2051 192, other 0 2051 193",
        ),
        (
            0x161,
            2,
            "opening, core write 2: master 1 2051 192, other none",
        ),
        (
            75,
            0,
            "PCM memory after the opening, address 3: master 152, other 0",
        ),
        (
            0x1AD,
            2,
            "frame 3, write 3: master 0 2073 1, other 0 2073 2",
        ),
    ] {
        let mut other = tune.clone();
        other[at] = value;
        let path = folder.join(at.to_string());
        fs::write(&path, other).unwrap();
        let output = sgub(["compare", &example("tune-1"), path.to_str().unwrap()])
            .output()
            .unwrap();
        expect(&output, 1, &format!("failed\n{words}\n"), "");
    }
    // A master that repeats.
    let mut master = P3.to_vec();
    master[6] = 1;
    let mut command = sgub(["compare", "-", &example("empty-2")]);
    let words = "failed\nrepeat: the master repeats, the other does not\n";
    expect(&with_input(&mut command, &master), 1, words, "");
}

#[test]
fn standard_input_may_be_either_file() {
    let [one, two] = ["tune-1", "tune-2"].map(example);
    for arguments in [["compare", "-", &two], ["compare", &one, "-"]] {
        let file = if arguments[1] == "-" { &one } else { &two };
        let bytes = fs::read(root().join(file)).unwrap();
        let output = with_input(&mut sgub(arguments), &bytes);
        expect(&output, 0, "passed\n", "");
    }
    let mut command = sgub(["compare", "--", &one, &two]);
    expect(&command.output().unwrap(), 0, "passed\n", "");
}

#[test]
fn what_cannot_run_is_status_2() {
    let tail = "; 'sgub help' lists the commands\n";
    for (arguments, message) in [
        (&["compare"][..], "compare takes a master and another file"),
        (&["compare", "x"], "compare takes a master and another file"),
        (
            &["compare", "x", "y", "z"],
            "compare takes a master and another file",
        ),
        (
            &["compare", "-", "-"],
            "standard input is one file, not two",
        ),
        (&["compare", "--all", "x", "y"], "no option --all"),
    ] {
        run(arguments, 2, "", &format!("sgub: {message}{tail}"));
    }
    let missing = "could not run: No such file or directory (os error 2)";
    for [master, other, name] in [
        ["none", "none-2", "none"],
        ["examples/tune-1.sgub", "none-2", "none-2"],
    ] {
        let message = format!("sgub: {name}: {missing}\n");
        run(&["compare", master, other], 2, "", &message);
    }
}
