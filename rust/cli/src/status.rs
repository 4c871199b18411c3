//! How a run ends.

use std::fmt;
use std::io;
use std::process::ExitCode;

/// What a run says by its exit status. Of several files the worst counts, so the order matters.
#[derive(Clone, Copy, Debug, PartialEq, Eq, PartialOrd, Ord)]
pub enum Status {
    /// Every file is accepted, the result is written, the comparison passed, or what was asked for is printed.
    Accepted = 0,
    /// A file or a note is refused, or the comparison failed.
    Refused = 1,
    /// A file could not be read or written, or the command could not be understood.
    CouldNotRun = 2,
}

impl From<Status> for ExitCode {
    fn from(status: Status) -> Self {
        Self::from(status as u8)
    }
}

/// Why a command could not run.
#[derive(Debug)]
pub enum Failure {
    /// With a message.
    Said(String),
    /// Whoever reads the output has gone, as `head` does, and wants to hear no more.
    Unheard,
}

impl Failure {
    /// A failure with its message.
    pub fn new(message: impl Into<String>) -> Self {
        Self::Said(message.into())
    }

    /// Says it on standard error.
    pub fn say(&self) {
        if let Self::Said(message) = self {
            eprintln!("sgub: {message}");
        }
    }

    /// A command that cannot be understood.
    pub fn usage(message: impl fmt::Display) -> Self {
        Self::Said(format!("{message}; 'sgub help' lists the commands"))
    }
}

/// A failure to print: the files themselves are read in `input`.
impl From<io::Error> for Failure {
    fn from(error: io::Error) -> Self {
        match error.kind() {
            io::ErrorKind::BrokenPipe => Self::Unheard,
            _ => Self::Said(format!("could not write: {error}")),
        }
    }
}
