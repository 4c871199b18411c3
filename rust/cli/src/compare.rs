//! `sgub compare MASTER OTHER`: whether a master and a file of version 2 sound the same.

use crate::input;
use crate::status::{Failure, Status};
use sgub::{Comparison, IMAGE_SIZE};
use sgub_cli::first_difference;
use std::ffi::OsString;
use std::io::Write;

/// Compares two files. The verdict is the library's; where it is 'failed', a second line says where they first differ.
pub fn run(arguments: &[OsString], out: &mut impl Write) -> Result<Status, Failure> {
    let (_, files) = input::files(arguments, &[])?;
    let [master, other] = files[..] else {
        return Err(Failure::usage("compare takes a master and another file"));
    };
    input::standard_input_once(&files)?;
    let (master, other) = (input::read(master)?, input::read(other)?);
    let mut images = [(); 2].map(|()| vec![0; IMAGE_SIZE]);
    let [master_image, other_image] = &mut images;
    match sgub::compare(&master, &other, master_image, other_image) {
        Ok(Comparison::Passed) => {
            writeln!(out, "passed")?;
            return Ok(Status::Accepted);
        }
        Ok(Comparison::Failed) => {
            writeln!(out, "failed")?;
            if let Some(difference) = first_difference(&master, &other, master_image, other_image) {
                writeln!(out, "{difference}")?;
            }
        }
        Err(refused) => writeln!(out, "{refused}")?,
    }
    Ok(Status::Refused)
}
