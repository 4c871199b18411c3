//! `sgub repack`

use crate::result::{P7, folder, holds, repack, run};
use crate::{P3, expect, with_input};
use std::fs::{self, File};
use std::process::{Command, Stdio};

#[test]
fn a_result_is_made() {
    let folder = folder("repack-made");
    run(&folder, &["master", "result"], 0, "repacked 42\n", "");
    holds(&folder, &[("master", P3), ("result", P7)]);
    let output = with_input(&mut repack(&folder, &["-", "--", "-x"]), P3);
    expect(&output, 0, "repacked 42\n", "");
    holds(&folder, &[("-x", P7), ("master", P3), ("result", P7)]);
}

#[test]
fn a_refusal_leaves_the_result_as_it_was() {
    let folder = folder("repack-refused");
    fs::write(folder.join("result"), b"old").unwrap();
    fs::write(folder.join("two"), P7).unwrap();
    fs::write(folder.join("cut"), &P3[..21]).unwrap();
    let files: [(&str, &[u8]); 4] = [
        ("cut", &P3[..21]),
        ("master", P3),
        ("result", b"old"),
        ("two", P7),
    ];
    for (master, line) in [("two", "refused 21 0\n"), ("cut", "refused 8 0\n")] {
        run(&folder, &[master, "new"], 1, line, "");
        run(&folder, &["--force", master, "result"], 1, line, "");
        holds(&folder, &files);
    }
}

#[test]
fn a_master_that_cannot_be_read_is_a_failure() {
    let folder = folder("repack-unread");
    let message = "sgub: none: could not run: No such file or directory (os error 2)\n";
    run(&folder, &["none", "result"], 2, "", message);
    holds(&folder, &[("master", P3)]);
}

/// A file system that is full: a limit on the size of files stands in for it.
#[test]
fn a_write_that_fails_half_way_leaves_nothing() {
    let folder = folder("repack-full");
    // 1,000 empty frames: the result has 2,040 bytes, and the limit is one block, 512 or 1,024 by the shell.
    let mut master = P3.to_vec();
    master.resize(2020, 0);
    master[8..12].copy_from_slice(&1000_u32.to_be_bytes());
    master[16..20].copy_from_slice(&2020_u32.to_be_bytes());
    fs::write(folder.join("master"), &master).unwrap();
    fs::write(folder.join("result"), b"old").unwrap();
    // The signal is ignored, so that the write itself fails.
    let script = "trap '' XFSZ; ulimit -f 1; exec \"$0\" repack --force master \"$1\"";
    for name in ["result", "new"] {
        let output = Command::new("sh")
            .args(["-c", script, env!("CARGO_BIN_EXE_sgub"), name])
            .current_dir(&folder)
            .output()
            .unwrap();
        let message = format!("sgub: {name}: could not be written: File too large (os error 27)\n");
        expect(&output, 2, "", &message);
        holds(&folder, &[("master", &master), ("result", b"old")]);
    }
}

#[test]
fn a_line_that_cannot_be_printed_is_a_failure() {
    let folder = folder("repack-unheard");
    let full = File::create("/dev/full").expect("/dev/full stands for a full disk");
    let output = repack(&folder, &["master", "result"])
        .stdout(Stdio::from(full))
        .stderr(Stdio::piped())
        .spawn()
        .unwrap()
        .wait_with_output()
        .unwrap();
    let message = "sgub: could not write: No space left on device (os error 28)\n";
    expect(&output, 2, "", message);
    // The result was whole by then.
    holds(&folder, &[("master", P3), ("result", P7)]);
}

#[test]
fn bad_usage_is_status_2() {
    let folder = folder("repack-usage");
    let tail = "; 'sgub help' lists the commands\n";
    for (arguments, message) in [
        (&[][..], "repack takes a master and a result"),
        (&["master"], "repack takes a master and a result"),
        (&["--force", "master"], "repack takes a master and a result"),
        (
            &["master", "result", "more"],
            "repack takes a master and a result",
        ),
        (&["--all", "master", "result"], "no option --all"),
        (&["master", "-"], "a result needs a name, and - is none"),
    ] {
        let message = format!("sgub: {message}{tail}");
        run(&folder, arguments, 2, "", &message);
    }
    holds(&folder, &[("master", P3)]);
}
