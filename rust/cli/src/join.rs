//! `sgub join FIRST SECOND RESULT`: two files of version 2 as one.

use crate::input;
use crate::output::{Destination, FORCE};
use crate::status::{Failure, Status};
use std::ffi::OsString;
use std::io::Write;

/// Joins two files. Whether the result may be written is tested before a file is read, and both are read before one is judged.
pub fn run(arguments: &[OsString], out: &mut impl Write) -> Result<Status, Failure> {
    let (options, files) = input::files(arguments, &[FORCE])?;
    let [first, second, result] = files[..] else {
        return Err(Failure::usage("join takes two files and a result"));
    };
    input::standard_input_once(&[first, second])?;
    let destination = Destination::new(result, &[first, second], options.contains(&FORCE))?;
    let (first, second) = (input::read(first)?, input::read(second)?);
    match sgub::join_to_vec(&first, &second) {
        Ok(bytes) => {
            destination.write(&bytes)?;
            writeln!(out, "joined {}", bytes.len())?;
            Ok(Status::Accepted)
        }
        Err(refused) => {
            writeln!(out, "{refused}")?;
            Ok(Status::Refused)
        }
    }
}
