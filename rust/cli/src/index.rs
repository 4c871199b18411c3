//! `sgub index FILE [INDEX]`: where the frames of a file stand, for `sgub play --from`.

use crate::input::{self, STANDARD_INPUT};
use crate::output::{Destination, FORCE};
use crate::status::{Failure, Status};
use std::ffi::{OsStr, OsString};
use std::fs;
use std::io::Write;

/// What is added to a file's name for the name of its index.
const ENDING: &str = ".index";

/// The bytes behind the entries of an index.
const TRAILER: usize = 12;

/// Builds the index of a file. Whether it may be written is tested before the file is read.
pub fn run(arguments: &[OsString], out: &mut impl Write) -> Result<Status, Failure> {
    let (options, files) = input::files(arguments, &[FORCE])?;
    let (file, index) = match files[..] {
        [file] => (file, beside(file)?),
        [file, index] => (file, index.to_owned()),
        _ => {
            return Err(Failure::usage(
                "index takes a file and, if not FILE.index, an index",
            ));
        }
    };
    let replace = options.contains(&FORCE) || is_index(&index);
    let destination = Destination::new(&index, &[file], replace)?;
    match sgub::build_index(&input::read(file)?) {
        Ok(bytes) => {
            destination.write(&bytes)?;
            writeln!(out, "indexed {}", bytes.len())?;
            Ok(Status::Accepted)
        }
        Err(refusal) => {
            writeln!(out, "{refusal}")?;
            Ok(Status::Refused)
        }
    }
}

/// The name of the index beside a file.
fn beside(file: &OsStr) -> Result<OsString, Failure> {
    if file == STANDARD_INPUT {
        return Err(Failure::usage(
            "standard input has no name: index - needs the name of the index",
        ));
    }
    let mut name = file.to_owned();
    name.push(ENDING);
    Ok(name)
}

/// Whether a file is an index, of whichever stream. Nothing is lost where a new one replaces it: its stream gives it again.
fn is_index(name: &OsStr) -> bool {
    let is_short = |file: fs::Metadata| file.is_file() && file.len() <= sgub::LONGEST_INDEX as u64;
    fs::metadata(name).is_ok_and(is_short) && fs::read(name).is_ok_and(|bytes| has_trailer(&bytes))
}

/// Whether bytes end as an index does: with the distance back to the first entry, and the number of entries.
fn has_trailer(bytes: &[u8]) -> bool {
    let Some((entries, trailer)) = bytes.split_last_chunk::<TRAILER>() else {
        return false;
    };
    let number = |at| {
        u32::from_be_bytes([
            trailer[at],
            trailer[at + 1],
            trailer[at + 2],
            trailer[at + 3],
        ])
    };
    let [distance, count] = [number(0), number(4)].map(u64::from);
    !entries.is_empty() && distance == entries.len() as u64 && distance == 4 * count
}
