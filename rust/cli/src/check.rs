//! `sgub check FILE...`: a line for each file.

use crate::input;
use crate::status::{Failure, Status};
use sgub::{Header, Refusal};
use std::ffi::OsString;
use std::io::Write;

/// Checks the files in their order. One that cannot be read does not keep the others from being checked.
pub fn run(arguments: &[OsString], out: &mut impl Write) -> Result<Status, Failure> {
    let (_, files) = input::files(arguments, &[])?;
    if files.is_empty() {
        return Err(Failure::usage("check needs a file"));
    }
    input::standard_input_once(&files)?;
    let mut worst = Status::Accepted;
    for name in &files {
        let status = match input::read(name) {
            Ok(file) => {
                if files.len() > 1 {
                    write!(out, "{}: ", name.display())?;
                }
                let verdict = sgub::check(&file);
                writeln!(out, "{}", line(&verdict))?;
                status(&verdict)
            }
            Err(failure) => {
                failure.say();
                Status::CouldNotRun
            }
        };
        worst = worst.max(status);
    }
    Ok(worst)
}

/// The line of the check program.
pub fn line(verdict: &Result<Header, Refusal>) -> String {
    match verdict {
        Ok(header) => format!(
            "accepted {} {} {}",
            header.version, header.frame_count, header.initial_count
        ),
        Err(refusal) => refusal.to_string(),
    }
}

/// The status that one file gives.
pub fn status(verdict: &Result<Header, Refusal>) -> Status {
    match verdict {
        Ok(_) => Status::Accepted,
        Err(_) => Status::Refused,
    }
}
