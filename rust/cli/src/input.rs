//! Arguments that name files, and the bytes of the files.
//!
//! A verdict speaks of all bytes of a file, so a file is read whole, whatever its size. Only above [`LONGEST`] the command
//! says that it could not run. Such a file cannot be a stream, but which refusal it gets is for the library to say, and the
//! library wants all of it in memory.

use crate::status::Failure;
use std::ffi::{OsStr, OsString};
use std::fs::{self, File, Metadata};
use std::io::{self, Read};
use std::os::fd::AsFd;
use std::os::unix::fs::MetadataExt;

/// The longest file that is read: 4 GiB, some 290 times the longest stream.
const LONGEST: u64 = 1 << 32;

/// The name of standard input.
pub const STANDARD_INPUT: &str = "-";

/// Splits arguments into options, which must be known, and files. Behind `--` every argument is a file.
pub fn files<'a>(
    arguments: &'a [OsString],
    known: &[&str],
) -> Result<(Vec<&'a str>, Vec<&'a OsStr>), Failure> {
    let (mut options, mut files) = (Vec::new(), Vec::new());
    let mut arguments = arguments.iter();
    while let Some(argument) = arguments.next() {
        let is_option = argument != STANDARD_INPUT && argument.as_encoded_bytes().starts_with(b"-");
        match argument.to_str() {
            Some("--") => files.extend(arguments.by_ref().map(OsString::as_os_str)),
            Some(option) if known.contains(&option) => options.push(option),
            _ if is_option => {
                return Err(Failure::usage(format!("no option {}", argument.display())));
            }
            _ => files.push(argument),
        }
    }
    Ok((options, files))
}

/// Tests that standard input is read once at most: a second reading would find it empty.
pub fn standard_input_once(files: &[&OsStr]) -> Result<(), Failure> {
    match files.iter().filter(|name| **name == STANDARD_INPUT).count() {
        0 | 1 => Ok(()),
        _ => Err(Failure::usage("standard input is one file, not two")),
    }
}

/// The bytes of a file; `-` is standard input.
pub fn read(name: &OsStr) -> Result<Vec<u8>, Failure> {
    let bytes = if name == STANDARD_INPUT {
        read_standard_input()
    } else {
        read_file(name)
    };
    bytes.map_err(|error| Failure::new(format!("{}: could not run: {error}", name.display())))
}

/// What the file system says of a file; `-` is standard input.
pub fn metadata(name: &OsStr) -> io::Result<Metadata> {
    if name == STANDARD_INPUT {
        standard_input()?.metadata()
    } else {
        fs::metadata(name)
    }
}

/// Whether two names are names of one file.
pub fn is_same(one: &Metadata, other: &Metadata) -> bool {
    (one.dev(), one.ino()) == (other.dev(), other.ino())
}

fn read_file(name: &OsStr) -> io::Result<Vec<u8>> {
    let file = File::open(name)?;
    let length = file.metadata()?.len();
    if length > LONGEST {
        return Err(too_long());
    }
    read_all(file, length)
}

fn read_standard_input() -> io::Result<Vec<u8>> {
    let file = standard_input()?;
    if is_closed(&file) {
        return Err(io::Error::other("standard input is closed"));
    }
    read_all(file, 0)
}

/// Standard input as a file. `io::Stdin` takes one that is open for writing only for an empty one, and would hide the error.
fn standard_input() -> io::Result<File> {
    io::stdin().as_fd().try_clone_to_owned().map(File::from)
}

/// Whether the command was started with standard input closed, which is not an empty file.
///
/// Before `main`, Rust opens /dev/null for reading and writing in its place. A shell's `</dev/null` opens it for reading only, and
/// is an empty file. A /dev/null that another program opened for both is taken for closed too: nothing tells the two apart.
/// Without /proc a closed standard input cannot be told at all, and is read as empty.
fn is_closed(standard_input: &File) -> bool {
    is_null(standard_input).unwrap_or(false)
        && fs::read_to_string("/proc/self/fdinfo/0").is_ok_and(|info| is_read_and_written(&info))
}

fn is_null(file: &File) -> io::Result<bool> {
    Ok(is_same(&file.metadata()?, &fs::metadata("/dev/null")?))
}

/// Whether Linux's words on an open file say `O_RDWR`, which is 2 in the lowest two bits of the flags, an octal number.
fn is_read_and_written(info: &str) -> bool {
    info.lines()
        .find_map(|line| line.strip_prefix("flags:"))
        .and_then(|flags| u64::from_str_radix(flags.trim(), 8).ok())
        .is_some_and(|flags| flags & 3 == 2)
}

/// Reads to the end, of which the length that the file system gives is only a hint.
fn read_all(source: impl Read, expected: u64) -> io::Result<Vec<u8>> {
    let mut bytes = Vec::new();
    bytes.try_reserve_exact(expected as usize)?;
    source.take(LONGEST + 1).read_to_end(&mut bytes)?;
    if bytes.len() as u64 > LONGEST {
        return Err(too_long());
    }
    Ok(bytes)
}

fn too_long() -> io::Error {
    let message = format!("longer than {LONGEST} bytes; a stream has 14680064 at most");
    io::Error::new(io::ErrorKind::FileTooLarge, message)
}

#[cfg(test)]
mod tests {
    use super::*;

    #[test]
    fn flags_say_how_a_file_was_opened() {
        assert!(is_read_and_written(
            "pos:\t0\nflags:\t0100002\nmnt_id:\t1\n"
        ));
        assert!(!is_read_and_written(
            "pos:\t0\nflags:\t0100000\nmnt_id:\t1\n"
        ));
        assert!(!is_read_and_written(
            "pos:\t0\nflags:\t0100001\nmnt_id:\t1\n"
        ));
        assert!(!is_read_and_written("pos:\t0\n"));
    }
}
