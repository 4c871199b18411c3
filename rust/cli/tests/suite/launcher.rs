//! The launcher `sgub` at the root of the repository, in a copy of the repository's outline. The programs rt and cargo that it
//! finds there, in `tests/launcher`, only note that they were called.

use crate::{expect, root};
use std::env;
use std::fs::{self, File};
use std::os::unix::fs::symlink;
use std::path::{Path, PathBuf};
use std::process::{self, Child, Command, Output, Stdio};
use std::thread;
use std::time::{Duration, Instant, SystemTime};

/// How rt is called for the library, in the folder of the crate sgub, with N for a number of jobs.
const RT_CALLS: &str = "sgub: rt all check --jobs N\nsgub: rt lib\n";
const CARGO_CALL: &str = "cargo build --release --quiet --manifest-path rust/Cargo.toml \
                          --target-dir rust/target --package sgub-cli\n";

/// The first line of a build of the library.
const BUILDING: &str =
    "sgub: building the proved library: 3 crates are checked first, which takes minutes ..\n";

/// A source of the library.
const SOURCE: &str = "crates/sgub/src/lib.rt";

/// It lies outside of the repository, in which `rt ci` refuses a second crates.txt.
struct Outline {
    root: PathBuf,
}

impl Drop for Outline {
    fn drop(&mut self) {
        let _ = fs::remove_dir_all(&self.root);
    }
}

impl Outline {
    fn new(test: &str) -> Self {
        let name = format!("sgub-{test}-{}", process::id());
        let outline = Self {
            root: env::temp_dir().join(name),
        };
        for name in [
            SOURCE,
            "rust/Cargo.toml",
            "rust/Cargo.lock",
            "rust/sgub/Cargo.toml",
            "rust/sgub/build.rs",
            "rust/sgub/src/lib.rs",
            "rust/cli/Cargo.toml",
            "rust/cli/src/main.rs",
            "elsewhere/note",
        ] {
            outline.write(name, "");
        }
        // sgub stands on two crates and on one of the kit's; the last one is none of them.
        let crates = "# Crates\nbase:\nbytes: base # numbers\nsgub staticlib: base bytes io\n\ntheorem: bytes\n";
        outline.write("crates.txt", crates);
        fs::create_dir(outline.root.join("bin")).unwrap();
        let programs = Path::new(env!("CARGO_MANIFEST_DIR")).join("tests/launcher");
        for (name, program) in [
            ("bin/rt", "rt"),
            ("bin/cargo", "cargo"),
            ("command", "command"),
        ] {
            symlink(programs.join(program), outline.root.join(name)).unwrap();
        }
        // A file that this process wrote itself could not be run while another test starts a process.
        let copied = Command::new("cp")
            .arg("sgub")
            .arg(&outline.root)
            .current_dir(root())
            .status();
        assert!(copied.unwrap().success());
        outline
    }

    fn write(&self, name: &str, text: &str) {
        let path = self.root.join(name);
        fs::create_dir_all(path.parent().unwrap()).unwrap();
        fs::write(path, text).unwrap();
    }

    fn remove(&self, name: &str) {
        fs::remove_file(self.root.join(name)).unwrap();
    }

    /// Makes a source newer than all else, and all of it older than what is built next.
    fn edit(&self, name: &str) {
        let then = SystemTime::now() - Duration::from_secs(60);
        set_times(&self.root, then);
        let file = File::open(self.root.join(name)).unwrap();
        file.set_modified(then + Duration::from_secs(1)).unwrap();
    }

    /// Starts the launcher in a directory below the root, with `bin` in front of the search path.
    fn start(&self, arguments: &[&str]) -> Child {
        let bin = self.root.join("bin");
        Command::new(self.root.join("sgub"))
            .args(arguments)
            .current_dir(self.root.join("elsewhere"))
            .env("PATH", format!("{}:/usr/bin:/bin", bin.display()))
            .stdin(Stdio::null())
            .stdout(Stdio::piped())
            .stderr(Stdio::piped())
            .spawn()
            .unwrap()
    }

    fn launch(&self, arguments: &[&str]) -> Output {
        self.start(arguments).wait_with_output().unwrap()
    }

    /// What rt and cargo were called with since this was last asked.
    fn take_calls(&self) -> String {
        let path = self.root.join("calls");
        let calls = fs::read_to_string(&path).unwrap_or_default();
        let _ = fs::remove_file(path);
        let lines = calls.lines().map(|line| match line.split_once(" --jobs ") {
            Some((head, _)) => format!("{head} --jobs N\n"),
            None => format!("{line}\n"),
        });
        lines.collect()
    }

    /// Runs the launcher and gives the calls of rt and cargo.
    #[track_caller]
    fn calls(&self) -> String {
        let output = self.launch(&["check", "a b"]);
        assert_eq!(output.status.code(), Some(7), "{output:?}");
        assert_eq!(output.stdout, b"in elsewhere: check a b\n");
        let calls = self.take_calls();
        assert_eq!(calls.is_empty(), output.stderr.is_empty(), "{output:?}");
        calls
    }

    /// Waits until rt is under way, which the file `slow` keeps it.
    fn wait_for_rt(&self) {
        wait(|| self.root.join("running").exists());
    }
}

/// Gives a directory and everything in it one time.
fn set_times(path: &Path, time: SystemTime) {
    if path.is_dir() {
        for entry in fs::read_dir(path).unwrap() {
            let entry = entry.unwrap();
            // The programs are links to the repository's files.
            if !entry.file_type().unwrap().is_symlink() {
                set_times(&entry.path(), time);
            }
        }
    }
    File::open(path).unwrap().set_modified(time).unwrap();
}

/// Waits until something is so.
#[track_caller]
fn wait(is_so: impl Fn() -> bool) {
    let start = Instant::now();
    while !is_so() {
        assert!(start.elapsed() < Duration::from_secs(60), "it never comes");
        thread::sleep(Duration::from_millis(10));
    }
}

fn signal(name: &str, child: &Child) {
    let status = Command::new("kill")
        .args([format!("-{name}"), child.id().to_string()])
        .status();
    assert!(status.unwrap().success());
}

fn said(output: &Output) -> String {
    String::from_utf8(output.stderr.clone()).unwrap()
}

#[test]
fn what_is_missing_or_old_is_built_and_nothing_else() {
    let outline = Outline::new("launcher");
    let all = format!("{RT_CALLS}{CARGO_CALL}");
    assert_eq!(outline.calls(), all);
    assert_eq!(outline.calls(), "");
    outline.edit("rust/cli/src/main.rs");
    assert_eq!(outline.calls(), CARGO_CALL);
    assert_eq!(outline.calls(), "");
    // This rt writes the same archive again, so the command is not built again.
    outline.edit(SOURCE);
    assert_eq!(outline.calls(), RT_CALLS);
    assert_eq!(outline.calls(), "");
    // What rt leaves is no source.
    outline.edit("crates/sgub/out/libsgub.a");
    assert_eq!(outline.calls(), "");
    outline.edit("target/staticlib/libsgub.a");
    assert_eq!(outline.calls(), CARGO_CALL);
    fs::remove_dir_all(outline.root.join("target")).unwrap();
    assert_eq!(outline.calls(), all);
    assert_eq!(outline.calls(), "");
}

#[test]
fn it_says_what_it_builds_and_how_long_it_took() {
    let outline = Outline::new("launcher_says");
    let messages = said(&outline.launch(&[]));
    let digits = |c: char| c.is_ascii_digit();
    let expected = format!(
        "{BUILDING}sgub: built the proved library in N s\nsgub: building the command ..\nsgub: built the command in N s\n"
    );
    assert_eq!(messages.replace(digits, "N"), expected.replace(digits, "N"));
    assert!(messages.starts_with(BUILDING));
}

/// Without a terminal a line is said for every tenth crate.
#[test]
fn it_says_how_far_the_proofs_are() {
    let outline = Outline::new("launcher_progress");
    outline.write("slow", "");
    let names: Vec<String> = (0..29).map(|number| format!("part{number}")).collect();
    let lines: String = names.iter().map(|name| format!("{name}:\n")).collect();
    let crates = format!("{lines}sgub staticlib: {}\n", names.join(" "));
    outline.write("crates.txt", &crates);
    outline.write("printed", &"statements core\n== part\n".repeat(19));
    let launcher = outline.start(&[]);
    outline.wait_for_rt();
    thread::sleep(Duration::from_millis(2500));
    outline.remove("slow");
    let messages = said(&launcher.wait_with_output().unwrap());
    let line = messages.lines().nth(1).unwrap();
    assert!(
        line.starts_with("sgub: 21 of 30 crates checked, "),
        "{line}"
    );
    assert_eq!(
        messages.matches(" crates checked, ").count(),
        1,
        "{messages}"
    );
}

/// One on each processor at most: fewer where memory is short.
#[test]
fn crates_are_checked_side_by_side() {
    let outline = Outline::new("launcher_jobs");
    outline.launch(&[]);
    let calls = fs::read_to_string(outline.root.join("calls")).unwrap();
    let (_, jobs) = calls
        .lines()
        .next()
        .unwrap()
        .split_once(" --jobs ")
        .unwrap();
    let processors = Command::new("nproc").output().unwrap().stdout;
    let processors = String::from_utf8(processors).unwrap();
    let most: u32 = processors.trim().parse().unwrap();
    // A check has a processor for itself where the memory allows it.
    let memory = fs::read_to_string("/proc/meminfo").unwrap();
    let free = memory
        .lines()
        .find_map(|line| line.strip_prefix("MemAvailable:"))
        .unwrap();
    let free: u32 = free.trim().trim_end_matches(" kB").parse().unwrap();
    let least = if free < 6_000_000 { 1 } else { most.min(2) };
    assert!((least..=most).contains(&jobs.parse().unwrap()), "{jobs}");
}

#[test]
fn without_rt_or_cargo_it_could_not_run() {
    let outline = Outline::new("launcher_without");
    let without = |program: &str, what: &str| {
        outline.remove(&format!("bin/{program}"));
        let output = outline.launch(&[]);
        assert_eq!((output.status.code(), output.stdout.len()), (Some(2), 0));
        let message = format!(
            "sgub: could not run: {what} has to be built, and there is no {program} on the PATH\n"
        );
        let messages = said(&output);
        assert!(messages.ends_with(&message), "{messages}");
    };
    without("cargo", "the command");
    fs::remove_dir_all(outline.root.join("target")).unwrap();
    without("rt", "the proved library");
}

#[test]
fn a_failed_build_shows_its_log() {
    let outline = Outline::new("launcher_fails");
    outline.write("broken", "");
    let output = outline.launch(&[]);
    let log = outline.root.join("target/launcher/rt-all.log");
    let messages = format!(
        "{BUILDING}fn base::first: not proved\n\
         sgub: could not run: the proved library cannot be built; {} has all that was said\n",
        log.display()
    );
    expect(&output, 2, "", &messages);
    // It is tried again at the next run.
    outline.remove("broken");
    outline.remove("calls");
    assert_eq!(outline.calls(), format!("{RT_CALLS}{CARGO_CALL}"));
}

#[test]
fn of_two_at_once_one_builds_and_the_other_waits() {
    let outline = Outline::new("launcher_two");
    outline.write("slow", "");
    let first = outline.start(&["first"]);
    outline.wait_for_rt();
    let second = outline.start(&["second"]);
    // The second has found out that it waits before the first goes on.
    thread::sleep(Duration::from_millis(500));
    outline.remove("slow");
    let second = second.wait_with_output().unwrap();
    let waits = "sgub: another ./sgub is building; waiting for it ..\n";
    expect(&second, 7, "in elsewhere: second\n", waits);
    let first = first.wait_with_output().unwrap();
    assert_eq!(first.stdout, b"in elsewhere: first\n");
    assert_eq!(outline.take_calls(), format!("{RT_CALLS}{CARGO_CALL}"));
}

#[test]
fn an_interrupted_build_ends_whole_and_goes_on_at_the_next_run() {
    for (name, status) in [("INT", 130), ("TERM", 143), ("HUP", 129)] {
        let outline = Outline::new(&format!("launcher_{name}"));
        outline.write("slow", "");
        let launcher = outline.start(&[]);
        outline.wait_for_rt();
        signal(name, &launcher);
        let output = launcher.wait_with_output().unwrap();
        expect(&output, status, "", BUILDING);
        // rt has ended too: it would make the file again.
        outline.remove("running");
        thread::sleep(Duration::from_millis(200));
        assert!(!outline.root.join("running").exists());
        outline.remove("slow");
        outline.take_calls();
        assert_eq!(outline.calls(), format!("{RT_CALLS}{CARGO_CALL}"));
    }
}

/// Where only the launcher is killed, rt goes on; the next launcher waits for it.
#[test]
fn the_next_launcher_waits_for_what_a_killed_one_started() {
    let outline = Outline::new("launcher_killed");
    outline.write("slow", "");
    let killed = outline.start(&[]);
    outline.wait_for_rt();
    signal("KILL", &killed);
    let next = outline.start(&["next"]);
    thread::sleep(Duration::from_millis(500));
    outline.remove("slow");
    let next = next.wait_with_output().unwrap();
    assert_eq!(next.stdout, b"in elsewhere: next\n");
    assert!(said(&next).starts_with("sgub: another ./sgub is building; waiting for it ..\n"));
    let calls = outline.take_calls();
    let begun = "sgub: rt all check --jobs N\n";
    assert_eq!(calls, format!("{begun}{RT_CALLS}{CARGO_CALL}"));
    drop(killed);
}
