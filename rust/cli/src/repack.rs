//! `sgub repack MASTER RESULT`: a master as a file of version 2.

use crate::input;
use crate::output::{Destination, FORCE};
use crate::status::{Failure, Status};
use std::ffi::OsString;
use std::io::Write;

/// Repacks a master. Whether the result may be written is tested before the master is read.
pub fn run(arguments: &[OsString], out: &mut impl Write) -> Result<Status, Failure> {
    let (options, files) = input::files(arguments, &[FORCE])?;
    let [master, result] = files[..] else {
        return Err(Failure::usage("repack takes a master and a result"));
    };
    let destination = Destination::new(result, &[master], options.contains(&FORCE))?;
    match sgub::repack_to_vec(&input::read(master)?) {
        Ok(bytes) => {
            destination.write(&bytes)?;
            writeln!(out, "repacked {}", bytes.len())?;
            Ok(Status::Accepted)
        }
        Err(refusal) => {
            writeln!(out, "{refusal}")?;
            Ok(Status::Refused)
        }
    }
}
