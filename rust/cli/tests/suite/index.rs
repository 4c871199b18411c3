//! `sgub index`

use crate::result::{P7, folder, holds};
use crate::{P3, expect, root, sgub, with_input};
use std::fs::{self, File};
use std::io::Write;
use std::path::Path;
use std::process::{Command, Stdio};

/// The index of P3: the place of its one frame, 4 times one entry, one entry, 22 bytes.
const INDEX: &[u8] = b"\0\0\0\x14\0\0\0\x04\0\0\0\x01\0\0\0\x16";

/// The command in a folder.
fn index(folder: &Path, arguments: &[&str]) -> Command {
    let mut command = sgub(["index"]);
    command.args(arguments).current_dir(folder);
    command
}

#[track_caller]
fn run(folder: &Path, arguments: &[&str], status: i32, stdout: &str, stderr: &str) {
    let output = index(folder, arguments).output().unwrap();
    expect(&output, status, stdout, stderr);
}

#[test]
fn an_index_is_made_beside_the_file_or_where_it_is_wanted() {
    let folder = folder("index-made");
    run(&folder, &["master"], 0, "indexed 16\n", "");
    holds(&folder, &[("master", P3), ("master.index", INDEX)]);
    run(&folder, &["master", "other"], 0, "indexed 16\n", "");
    let files = [("master", P3), ("master.index", INDEX), ("other", INDEX)];
    holds(&folder, &files);
    fs::write(folder.join("-x"), P3).unwrap();
    run(&folder, &["--", "-x"], 0, "indexed 16\n", "");
    assert_eq!(fs::read(folder.join("-x.index")).unwrap(), INDEX);
}

#[test]
fn the_index_of_an_example_is_the_one_that_is_stored() {
    let folder = folder("index-example");
    let examples = root().join("examples");
    fs::copy(examples.join("scale-2.sgub"), folder.join("scale")).unwrap();
    run(&folder, &["scale"], 0, "indexed 24\n", "");
    let stored = fs::read(examples.join("scale-2.sgub.index")).unwrap();
    assert_eq!(fs::read(folder.join("scale.index")).unwrap(), stored);
}

#[test]
fn standard_input_needs_a_name_for_its_index() {
    let folder = folder("index-input");
    let message = "sgub: standard input has no name: index - needs the name of the index; \
                   'sgub help' lists the commands\n";
    let output = with_input(&mut index(&folder, &["-"]), P3);
    expect(&output, 2, "", message);
    holds(&folder, &[("master", P3)]);
    let output = with_input(&mut index(&folder, &["-", "result"]), P3);
    expect(&output, 0, "indexed 16\n", "");
    holds(&folder, &[("master", P3), ("result", INDEX)]);
}

/// An index is made again whenever its file has changed.
#[test]
fn an_index_that_is_there_is_replaced() {
    let folder = folder("index-again");
    let other = [&b"\0\0\0\x30"[..], &INDEX[4..]].concat();
    for old in [INDEX, &other] {
        fs::write(folder.join("master.index"), old).unwrap();
        run(&folder, &["master"], 0, "indexed 16\n", "");
        holds(&folder, &[("master", P3), ("master.index", INDEX)]);
    }
    let mut file = File::options()
        .append(true)
        .open(folder.join("master.index"))
        .unwrap();
    file.write_all(b"\0").unwrap();
    let message = "sgub: master.index: could not be written: it is there already, \
                   and only --force replaces it\n";
    run(&folder, &["master"], 2, "", message);
    fs::write(folder.join("master.index"), &INDEX[4..]).unwrap();
    run(&folder, &["master"], 2, "", message);
}

/// As with every result; the suite of `sgub repack` has all cases.
#[test]
fn another_file_is_replaced_only_by_force() {
    let folder = folder("index-force");
    fs::write(folder.join("master.index"), b"old").unwrap();
    let message = "sgub: master.index: could not be written: it is there already, \
                   and only --force replaces it\n";
    run(&folder, &["master"], 2, "", message);
    run(&folder, &["master", "master.index"], 2, "", message);
    holds(&folder, &[("master", P3), ("master.index", b"old")]);
    run(&folder, &["--force", "master"], 0, "indexed 16\n", "");
    holds(&folder, &[("master", P3), ("master.index", INDEX)]);
    let message = "sgub: master: the result would replace a file that is read; \
                   'sgub help' lists the commands\n";
    run(&folder, &["--force", "master", "master"], 2, "", message);
    holds(&folder, &[("master", P3), ("master.index", INDEX)]);
}

#[test]
fn a_refusal_leaves_the_index_as_it_was() {
    let folder = folder("index-refused");
    let cut = &P7[..41];
    fs::write(folder.join("cut"), cut).unwrap();
    run(&folder, &["cut"], 1, "refused 8 0\n", "");
    holds(&folder, &[("cut", cut), ("master", P3)]);
    fs::write(folder.join("cut.index"), b"old").unwrap();
    run(&folder, &["--force", "cut"], 1, "refused 8 0\n", "");
    let files = [("cut", cut), ("cut.index", b"old"), ("master", P3)];
    holds(&folder, &files);
}

#[test]
fn a_file_that_cannot_be_read_is_a_failure() {
    let folder = folder("index-unread");
    let message = "sgub: none: could not run: No such file or directory (os error 2)\n";
    run(&folder, &["none"], 2, "", message);
    run(&folder, &["none", "result"], 2, "", message);
    holds(&folder, &[("master", P3)]);
}

/// A file system that is full: a limit on the size of files stands in for it.
#[test]
fn a_write_that_fails_half_way_leaves_nothing() {
    let folder = folder("index-full");
    // 100,000 empty frames: the index has 6,264 bytes, and the limit is one block, 512 or 1,024 by the shell.
    let mut long = P3.to_vec();
    long.resize(200_020, 0);
    long[8..12].copy_from_slice(&100_000_u32.to_be_bytes());
    long[16..20].copy_from_slice(&200_020_u32.to_be_bytes());
    fs::write(folder.join("master"), &long).unwrap();
    fs::write(folder.join("result"), b"old").unwrap();
    let script = "trap '' XFSZ; ulimit -f 1; exec \"$0\" index --force master \"$1\"";
    for name in ["result", "new"] {
        let output = Command::new("sh")
            .args(["-c", script, env!("CARGO_BIN_EXE_sgub"), name])
            .current_dir(&folder)
            .output()
            .unwrap();
        let message = format!("sgub: {name}: could not be written: File too large (os error 27)\n");
        expect(&output, 2, "", &message);
        holds(&folder, &[("master", &long), ("result", b"old")]);
    }
    run(&folder, &["master", "new"], 0, "indexed 6264\n", "");
}

#[test]
fn a_line_that_cannot_be_printed_is_a_failure() {
    let folder = folder("index-unheard");
    let full = File::create("/dev/full").expect("/dev/full stands for a full disk");
    let mut command = index(&folder, &["master"]);
    command.stdout(full).stderr(Stdio::piped());
    let output = command.spawn().unwrap().wait_with_output().unwrap();
    let message = "sgub: could not write: No space left on device (os error 28)\n";
    expect(&output, 2, "", message);
    // The index was whole by then.
    holds(&folder, &[("master", P3), ("master.index", INDEX)]);
}

#[test]
fn bad_usage_is_status_2() {
    let folder = folder("index-usage");
    let takes = "index takes a file and, if not FILE.index, an index";
    for (arguments, message) in [
        (&[][..], takes),
        (&["--force"], takes),
        (&["master", "result", "more"], takes),
        (&["--all", "master"], "no option --all"),
        (&["master", "-"], "a result needs a name, and - is none"),
    ] {
        let message = format!("sgub: {message}; 'sgub help' lists the commands\n");
        run(&folder, arguments, 2, "", &message);
    }
    holds(&folder, &[("master", P3)]);
}
