//! Runs the command and compares output and exit status, byte for byte; the first differences that its library finds; and what documents and
//! sources say of each other.

mod check;
mod compare;
mod difference;
mod explain;
mod index;
mod input;
mod join;
mod launcher;
mod pitch;
mod play;
mod play_from;
mod reading;
mod repack;
mod result;
mod rules;
mod usage;

use std::ffi::OsStr;
use std::io::Write;
use std::path::{Path, PathBuf};
use std::process::{Command, Output, Stdio};
use std::{fs, thread};

/// P3 of the format sheet: version 1, one empty frame.
const P3: &[u8] = b"SGUB\x01\x10\0\0\0\0\0\x01\0\0\0\0\0\0\0\x16\0\0";

/// The root of the repository.
fn root() -> PathBuf {
    let root = Path::new(env!("CARGO_MANIFEST_DIR")).join("../..");
    root.canonicalize().expect("the package is in rust/cli")
}

/// An empty directory for one test.
fn directory(test: &str) -> PathBuf {
    let directory = Path::new(env!("CARGO_TARGET_TMPDIR")).join(test);
    let _ = fs::remove_dir_all(&directory);
    fs::create_dir_all(&directory).unwrap();
    directory
}

/// The command at the root of the repository, with nothing on standard input.
fn sgub<A: AsRef<OsStr>>(arguments: impl IntoIterator<Item = A>) -> Command {
    let mut command = Command::new(env!("CARGO_BIN_EXE_sgub"));
    command
        .args(arguments)
        .current_dir(root())
        .stdin(Stdio::null());
    command
}

/// Runs a command with bytes on its standard input.
fn with_input(command: &mut Command, input: &[u8]) -> Output {
    let mut child = command
        .stdin(Stdio::piped())
        .stdout(Stdio::piped())
        .stderr(Stdio::piped())
        .spawn()
        .unwrap();
    let mut stdin = child.stdin.take().unwrap();
    thread::scope(|scope| {
        scope.spawn(move || stdin.write_all(input));
        child.wait_with_output().unwrap()
    })
}

/// Compares exit status, standard output and standard error.
#[track_caller]
fn expect(output: &Output, status: i32, stdout: &str, stderr: &str) {
    assert_eq!(String::from_utf8_lossy(&output.stderr), stderr);
    assert_eq!(String::from_utf8_lossy(&output.stdout), stdout);
    assert_eq!(output.status.code(), Some(status));
}

/// Runs the command and compares all that it says.
#[track_caller]
fn run(arguments: &[&str], status: i32, stdout: &str, stderr: &str) {
    let output = sgub(arguments).output().unwrap();
    expect(&output, status, stdout, stderr);
}
