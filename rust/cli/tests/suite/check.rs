//! `sgub check`

use crate::{P3, directory, expect, root, run, sgub, with_input};
use std::ffi::OsStr;
use std::fs::{self, File};
use std::os::unix::ffi::OsStrExt;
use std::process::Stdio;

#[test]
fn one_file_is_one_line() {
    run(
        &["check", "examples/empty-1.sgub"],
        0,
        "accepted 1 1 0\n",
        "",
    );
    run(
        &["check", "examples/refused-16.sgub"],
        1,
        "refused 16 20\n",
        "",
    );
}

#[test]
fn several_files_have_their_names_in_front() {
    run(
        &["check", "examples/empty-1.sgub", "examples/cards-4.sgub"],
        0,
        "examples/empty-1.sgub: accepted 1 1 0\nexamples/cards-4.sgub: accepted 4 2 4\n",
        "",
    );
    run(
        &["check", "examples/refused-6.sgub", "examples/cards-4.sgub"],
        1,
        "examples/refused-6.sgub: refused 6 0\nexamples/cards-4.sgub: accepted 4 2 4\n",
        "",
    );
}

#[test]
fn a_file_that_cannot_be_read_does_not_stop_the_others() {
    run(
        &["check", "examples/none.sgub", "examples/refused-6.sgub"],
        2,
        "examples/refused-6.sgub: refused 6 0\n",
        "sgub: examples/none.sgub: could not run: No such file or directory (os error 2)\n",
    );
    run(
        &["check", "examples"],
        2,
        "",
        "sgub: examples: could not run: Is a directory (os error 21)\n",
    );
}

/// The table of examples/README.md says the truth, and names every example.
#[test]
fn the_examples_are_what_their_table_says() {
    let examples = root().join("examples");
    let table = fs::read_to_string(examples.join("README.md")).unwrap();
    let mut listed = Vec::new();
    for row in table.lines().filter(|row| row.starts_with("| `")) {
        let cells: Vec<&str> = row
            .split('|')
            .map(|cell| cell.trim().trim_matches('`'))
            .collect();
        let [_, name, bytes, line, ..] = cells.as_slice() else {
            panic!("{row}");
        };
        let path = examples.join(name);
        assert_eq!(
            fs::metadata(&path).unwrap().len().to_string(),
            *bytes,
            "{name}"
        );
        let status = i32::from(line.starts_with("refused"));
        let output = sgub([OsStr::new("check"), path.as_os_str()])
            .output()
            .unwrap();
        expect(&output, status, &format!("{line}\n"), "");
        listed.push((*name).to_owned());
    }
    let mut found: Vec<String> = fs::read_dir(&examples)
        .unwrap()
        .map(|entry| entry.unwrap().file_name().into_string().unwrap())
        .filter(|name| name.ends_with(".sgub"))
        .collect();
    found.sort();
    listed.sort();
    assert_eq!(found, listed);
}

#[test]
fn standard_input_is_a_file() {
    let output = with_input(&mut sgub(["check", "-"]), P3);
    expect(&output, 0, "accepted 1 1 0\n", "");
    let output = with_input(
        &mut sgub(["check", "-", "examples/empty-2.sgub"]),
        &P3[..21],
    );
    expect(
        &output,
        1,
        "-: refused 8 0\nexamples/empty-2.sgub: accepted 2 1 0\n",
        "",
    );
    run(&["check", "-"], 1, "refused 1 0\n", "");
}

#[test]
fn names_are_any_bytes() {
    let directory = directory("names");
    let names = [OsStr::new("-x"), OsStr::from_bytes(b"\xFF.sgub")];
    for name in names {
        fs::write(directory.join(name), P3).unwrap();
    }
    let arguments = [OsStr::new("check"), OsStr::new("--")];
    let output = sgub(arguments.into_iter().chain(names))
        .current_dir(directory)
        .output()
        .unwrap();
    expect(
        &output,
        0,
        "-x: accepted 1 1 0\n\u{FFFD}.sgub: accepted 1 1 0\n",
        "",
    );
}

/// Longer than any stream, so that the verdict comes from the header and the true length.
#[test]
fn a_long_file_is_refused() {
    let path = directory("long").join("long.sgub");
    let path = path.to_str().unwrap();
    let mut file = P3.to_vec();
    file.resize(0xE0_0001, 0);
    file[16..20].copy_from_slice(&0xE0_0001_u32.to_be_bytes());
    fs::write(path, &file).unwrap();
    run(&["check", path], 1, "refused 8 0\n", "");
    file[5] = 15;
    fs::write(path, &file).unwrap();
    run(&["check", path], 1, "refused 4 0\n", "");
    fs::remove_file(path).unwrap();
}

/// The file has no contents on the disk, and is not read.
#[test]
fn a_file_above_4_gib_could_not_run() {
    let path = directory("huge").join("huge.sgub");
    let file = File::create(&path).unwrap();
    file.set_len((1 << 32) + 1).unwrap();
    let path = path.to_str().unwrap();
    let message = format!(
        "sgub: {path}: could not run: longer than 4294967296 bytes; a stream has 14680064 at most\n"
    );
    run(
        &["check", path, "examples/empty-1.sgub"],
        2,
        "examples/empty-1.sgub: accepted 1 1 0\n",
        &message,
    );
    fs::remove_file(path).unwrap();
}

#[test]
fn output_that_cannot_be_written_is_a_failure() {
    let full = File::create("/dev/full").expect("/dev/full stands for a full disk");
    let output = sgub(["check", "examples/empty-1.sgub"])
        .stdout(Stdio::from(full))
        .stderr(Stdio::piped())
        .spawn()
        .unwrap()
        .wait_with_output()
        .unwrap();
    let message = "sgub: could not write: No space left on device (os error 28)\n";
    expect(&output, 2, "", message);
}
