//! What the options of `sgub play` say.

use crate::status::Failure;
use std::ffi::{OsStr, OsString};

/// Records of the run where no option says.
const RUN: usize = 4096;

/// The most records of a run: 16 million, which is 192 MiB.
const LONGEST_RUN: u64 = 1 << 24;

/// What the options say.
pub struct Options {
    /// How many vsyncs are played; to the end where none is given.
    pub vsyncs: Option<u64>,
    /// The records of the run.
    pub run: usize,
    /// Whether writes are counted and not listed.
    pub summary: bool,
    /// The frame that playing starts at.
    pub from: Option<u32>,
    /// The file that has the index.
    pub index: Option<OsString>,
}

impl Options {
    /// The options, and the arguments that are none of them.
    pub fn read(arguments: &[OsString]) -> Result<(Self, Vec<OsString>), Failure> {
        let mut options = Self {
            vsyncs: None,
            run: RUN,
            summary: false,
            from: None,
            index: None,
        };
        let mut rest = Vec::new();
        let mut arguments = arguments.iter();
        while let Some(argument) = arguments.next() {
            match argument.to_str() {
                Some("--vsyncs") => {
                    options.vsyncs = Some(number("--vsyncs", arguments.next(), 0, u64::MAX)?);
                }
                Some("--run") => {
                    options.run = number("--run", arguments.next(), 1, LONGEST_RUN)? as usize;
                }
                Some("--summary") => options.summary = true,
                Some("--from") => options.from = Some(frame(arguments.next())?),
                Some("--index") => options.index = Some(index(arguments.next())?),
                other => {
                    rest.push(argument.clone());
                    if other == Some("--") {
                        rest.extend(arguments.by_ref().cloned());
                    }
                }
            }
        }
        if options.index.is_some() && options.from.is_none() {
            return Err(Failure::usage("--index is for --from"));
        }
        Ok((options, rest))
    }
}

/// The number behind an option.
fn number(
    option: &str,
    argument: Option<&OsString>,
    least: u64,
    most: u64,
) -> Result<u64, Failure> {
    argument
        .and_then(|argument| argument.to_str()?.parse().ok())
        .filter(|number| (least..=most).contains(number))
        .ok_or_else(|| Failure::usage(format!("{option} needs a number from {least} to {most}")))
}

/// The frame behind `--from`. Which frames a file has is for the library to say, also of a number that it cannot take: that one is
/// above the frame count of every file, as the greatest that it can take is.
fn frame(argument: Option<&OsString>) -> Result<u32, Failure> {
    argument
        .and_then(|argument| argument.to_str())
        .filter(|digits| !digits.is_empty() && digits.bytes().all(|byte| byte.is_ascii_digit()))
        .map(|digits| digits.parse().unwrap_or(u32::MAX))
        .ok_or_else(|| Failure::usage("--from needs the number of a frame"))
}

/// The file behind `--index`.
fn index(argument: Option<&OsString>) -> Result<OsString, Failure> {
    let name = argument.map(OsString::as_os_str);
    name.map(OsStr::to_owned)
        .ok_or_else(|| Failure::usage("--index needs a file"))
}
