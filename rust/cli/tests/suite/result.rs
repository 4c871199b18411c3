//! Where a result may go, and that no file is destroyed by one. Every command that writes uses the same module; `sgub repack` stands
//! for them.

use crate::{P3, directory, expect, sgub};
use std::fs::{self, File, OpenOptions, Permissions};
use std::io::Write;
use std::os::unix::fs::{PermissionsExt, symlink};
use std::path::{Path, PathBuf};
use std::process::{Command, Stdio};

/// P7 of the format sheet: P3 repacked.
pub const P7: &[u8] = b"SGUB\x02\x10\0\0\0\0\0\x01\0\0\0\0\0\0\0\0\0\0\0\x28\
    \0\0\0\x28\0\0\0\x28\0\0\0\x2A\0\x28\0\0\0\0";

/// A folder with P3 under the name `master`.
pub fn folder(test: &str) -> PathBuf {
    let folder = directory(test);
    fs::write(folder.join("master"), P3).unwrap();
    folder
}

/// The command in a folder.
pub fn repack(folder: &Path, arguments: &[&str]) -> Command {
    let mut command = sgub(["repack"]);
    command.args(arguments).current_dir(folder);
    command
}

#[track_caller]
pub fn run(folder: &Path, arguments: &[&str], status: i32, stdout: &str, stderr: &str) {
    let output = repack(folder, arguments).output().unwrap();
    expect(&output, status, stdout, stderr);
}

/// The folder has these files with these bytes, and no others.
#[track_caller]
pub fn holds(folder: &Path, files: &[(&str, &[u8])]) {
    assert_eq!(names(folder), files.iter().map(|f| f.0).collect::<Vec<_>>());
    for (name, bytes) in files {
        assert_eq!(fs::read(folder.join(name)).unwrap(), *bytes, "{name}");
    }
}

fn names(folder: &Path) -> Vec<String> {
    let entries = fs::read_dir(folder).unwrap();
    let names = entries.map(|entry| entry.unwrap().file_name().into_string().unwrap());
    let mut names: Vec<String> = names.collect();
    names.sort();
    names
}

/// The result cannot be written, with and without `--force`, and this is said before the master is judged or read: of these three
/// one is accepted, one is refused, and one is not there.
#[track_caller]
fn refused(folder: &Path, result: &str, reason: &str) {
    let message = format!("sgub: {result}: could not be written: {reason}\n");
    fs::write(folder.join("cut"), &P3[..21]).unwrap();
    let before = names(folder);
    for master in ["master", "cut", "none"] {
        run(folder, &[master, result], 2, "", &message);
        run(folder, &["--force", master, result], 2, "", &message);
    }
    assert_eq!(names(folder), before);
    fs::remove_file(folder.join("cut")).unwrap();
}

fn make_fifo(path: &Path) {
    let status = Command::new("mkfifo").arg(path).status();
    assert!(status.expect("mkfifo is there").success());
}

#[test]
fn a_file_that_is_there_is_replaced_only_by_force() {
    let folder = folder("result-force");
    let old = b"longer than the result, and no stream at all";
    fs::write(folder.join("result"), old).unwrap();
    let message = "sgub: result: could not be written: it is there already, \
                   and only --force replaces it\n";
    for master in ["master", "none"] {
        run(&folder, &[master, "result"], 2, "", message);
        holds(&folder, &[("master", P3), ("result", old)]);
    }
    for arguments in [
        ["--force", "master", "result"],
        ["master", "result", "--force"],
        ["--force", "master", "new"],
    ] {
        run(&folder, &arguments, 0, "repacked 42\n", "");
    }
    holds(&folder, &[("master", P3), ("new", P7), ("result", P7)]);
}

#[test]
fn a_result_that_is_an_input_is_a_wrong_call() {
    let folder = folder("result-input");
    fs::hard_link(folder.join("master"), folder.join("hard")).unwrap();
    symlink("master", folder.join("link")).unwrap();
    let all = ["./master", "hard", "link", "master"];
    for (result, master) in all.iter().flat_map(|one| all.map(|other| (one, other))) {
        let message = format!(
            "sgub: {result}: the result would replace a file that is read; \
             'sgub help' lists the commands\n"
        );
        run(&folder, &[master, result], 2, "", &message);
        run(&folder, &["--force", master, result], 2, "", &message);
        // Standard input may be that file too.
        let input = File::open(folder.join(master)).unwrap();
        let mut command = repack(&folder, &["--force", "-", result]);
        let output = command.stdin(input).output().unwrap();
        expect(&output, 2, "", &message);
    }
    holds(&folder, &[("hard", P3), ("link", P3), ("master", P3)]);
}

#[test]
fn a_read_only_file_is_never_replaced() {
    let folder = folder("result-read-only");
    let result = folder.join("result");
    fs::write(&result, b"old").unwrap();
    fs::set_permissions(&result, Permissions::from_mode(0o444)).unwrap();
    refused(&folder, "result", "it is read-only");
    holds(&folder, &[("master", P3), ("result", b"old")]);
}

#[test]
fn what_is_no_regular_file_is_refused() {
    let folder = folder("result-irregular");
    make_fifo(&folder.join("fifo"));
    fs::create_dir(folder.join("folder")).unwrap();
    symlink("folder", folder.join("link")).unwrap();
    for result in [
        "/dev/null",
        "/dev/full",
        "/dev/stdout",
        "/dev/stderr",
        "fifo",
        "folder",
        "link",
        ".",
        "/",
    ] {
        refused(&folder, result, "not a regular file");
    }
}

/// Standard output may be a regular file. It would lose the line that is printed.
#[test]
fn the_file_that_standard_output_goes_to_is_refused() {
    let folder = folder("result-stdout");
    for result in ["/dev/stdout", "out"] {
        let out = File::create(folder.join("out")).unwrap();
        let mut command = repack(&folder, &["--force", "master", result]);
        let child = command.stdout(out).stderr(Stdio::piped()).spawn().unwrap();
        let message =
            format!("sgub: {result}: could not be written: what this command prints goes there\n");
        expect(&child.wait_with_output().unwrap(), 2, "", &message);
        holds(&folder, &[("master", P3), ("out", b"")]);
    }
}

#[test]
fn a_link_to_no_file_stays() {
    let folder = folder("result-dangling");
    symlink("nothing", folder.join("link")).unwrap();
    refused(&folder, "link", "a symbolic link to no file");
    assert_eq!(names(&folder), ["link", "master"]);
    let link = fs::read_link(folder.join("link")).unwrap();
    assert_eq!(link, Path::new("nothing"));
}

#[test]
fn a_link_stays_a_link_and_the_mode_stays() {
    let folder = folder("result-link");
    let file = folder.join("file");
    fs::write(&file, b"old").unwrap();
    fs::set_permissions(&file, Permissions::from_mode(0o640)).unwrap();
    symlink("file", folder.join("link")).unwrap();
    let arguments = ["--force", "master", "link"];
    run(&folder, &arguments, 0, "repacked 42\n", "");
    assert!(folder.join("link").is_symlink());
    let mode = fs::metadata(&file).unwrap().permissions().mode();
    assert_eq!(mode & 0o777, 0o640);
    holds(&folder, &[("file", P7), ("link", P7), ("master", P3)]);
}

#[test]
fn a_folder_that_is_not_there_is_said() {
    let folder = folder("result-folder");
    let missing = "No such file or directory (os error 2)";
    refused(&folder, "none/result", &format!("folder none: {missing}"));
    let reason = format!("folder none/none: {missing}");
    refused(&folder, "none/none/result", &reason);
    refused(&folder, "master/result", "Not a directory (os error 20)");
    for result in ["result/", "result/.", "none/..", ""] {
        refused(&folder, result, "it does not name a file");
    }
    holds(&folder, &[("master", P3)]);
}

/// Nobody can make a file in /proc/self, not even root. Its `comm` is a regular file that is there.
#[test]
fn an_unwritable_folder_is_a_failure() {
    let folder = folder("result-unwritable");
    for name in ["/proc/self/comm", "/proc/self/result"] {
        let mut command = repack(&folder, &["--force", "master", name]);
        let output = command.output().unwrap();
        assert_eq!((output.status.code(), output.stdout.len()), (Some(2), 0));
        let said = String::from_utf8(output.stderr).unwrap();
        let head = format!("sgub: {name}: could not be written: ");
        assert!(said.starts_with(&head), "{said}");
    }
}

/// The master is a fifo, so that the command waits for it behind its tests of the result.
#[test]
fn a_file_that_comes_meanwhile_is_kept() {
    let folder = folder("result-meanwhile");
    let fifo = folder.join("fifo");
    make_fifo(&fifo);
    for arguments in [&["fifo", "result"][..], &["--force", "fifo", "result"]] {
        let mut command = repack(&folder, arguments);
        command.stdout(Stdio::piped()).stderr(Stdio::piped());
        let child = command.spawn().unwrap();
        // This waits until the command has opened the fifo.
        let mut writer = OpenOptions::new().write(true).open(&fifo).unwrap();
        fs::write(folder.join("result"), b"come").unwrap();
        writer.write_all(P3).unwrap();
        drop(writer);
        let message = "sgub: result: could not be written: File exists (os error 17)\n";
        expect(&child.wait_with_output().unwrap(), 2, "", message);
        assert_eq!(names(&folder), ["fifo", "master", "result"]);
        assert_eq!(fs::read(folder.join("result")).unwrap(), b"come");
        fs::remove_file(folder.join("result")).unwrap();
    }
}
