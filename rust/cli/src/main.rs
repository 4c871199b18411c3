//! The command `sgub`. The library decides everything about a file; this command reads files and prints. What it finds out by itself
//! is in the package's library.
#![forbid(unsafe_code)]

mod check;
mod compare;
mod explain;
mod help;
mod index;
mod input;
mod join;
mod output;
mod pitch;
mod play;
mod repack;
mod status;

use status::{Failure, Status};
use std::env;
use std::ffi::OsString;
use std::io::{self, Write};
use std::process::ExitCode;

fn main() -> ExitCode {
    let arguments: Vec<OsString> = env::args_os().skip(1).collect();
    // Standard output is written line by line, so that a long list of files shows how far it is.
    let status = run(&arguments, &mut io::stdout().lock()).unwrap_or_else(|failure| {
        failure.say();
        Status::CouldNotRun
    });
    status.into()
}

fn run(arguments: &[OsString], out: &mut impl Write) -> Result<Status, Failure> {
    let Some((command, arguments)) = arguments.split_first() else {
        return Err(Failure::usage("no command"));
    };
    match command.to_str() {
        Some("check") => check::run(arguments, out),
        Some("compare") => compare::run(arguments, out),
        Some("explain") => explain::run(arguments, out),
        Some("index") => index::run(arguments, out),
        Some("join") => join::run(arguments, out),
        Some("pitch") => pitch::run(arguments, out),
        Some("play") => play::run(arguments, out),
        Some("repack") => repack::run(arguments, out),
        Some("help" | "--help" | "-h") => help::help(out),
        Some("version" | "--version" | "-V") => help::version(out),
        _ => Err(Failure::usage(format!("no command {}", command.display()))),
    }
}
