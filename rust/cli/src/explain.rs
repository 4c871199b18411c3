//! `sgub explain FILE`: the line, and what is behind it. `sgub explain NUMBER`: the rule of a refusal.

mod accepted;
mod details;
mod dump;
mod fields;
mod refused;
mod rules;
mod text;

use crate::check::{line, status};
use crate::input;
use crate::status::{Failure, Status};
use std::ffi::{OsStr, OsString};
use std::io::Write;

/// Explains one file, or one number.
pub fn run(arguments: &[OsString], out: &mut impl Write) -> Result<Status, Failure> {
    let (options, files) = input::files(arguments, &["--all"])?;
    let [name] = files[..] else {
        return Err(Failure::usage("explain takes one file or one number"));
    };
    // Behind -- every argument is a file.
    if is_number(name) && !arguments.iter().any(|argument| argument == "--") {
        return match options[..] {
            [] => explain_number(name, out),
            _ => Err(Failure::usage("--all is for a file, not for a number")),
        };
    }
    explain_file(name, !options.is_empty(), out)
}

/// Whether an argument names a refusal. It does even where a file has that name, so that the files at hand do not matter.
fn is_number(name: &OsStr) -> bool {
    !name.is_empty() && name.as_encoded_bytes().iter().all(u8::is_ascii_digit)
}

fn explain_file(name: &OsStr, all: bool, out: &mut impl Write) -> Result<Status, Failure> {
    let file = input::read(name)?;
    let verdict = sgub::check(&file);
    let explanation = match &verdict {
        Ok(header) => accepted::explain(&file, header, all),
        Err(refusal) => refused::explain(&file, *refusal),
    };
    writeln!(out, "{}\n", line(&verdict))?;
    out.write_all(explanation.as_bytes())?;
    Ok(status(&verdict))
}

fn explain_number(name: &OsStr, out: &mut impl Write) -> Result<Status, Failure> {
    let number = name.to_str().and_then(|digits| digits.parse().ok());
    let text = number.and_then(|number| Some(rules::rule(number)?.whole_text(number)));
    let Some(text) = text else {
        let (name, last) = (name.display(), rules::LAST);
        let message =
            format!("no refusal {name}, only 1 to {last} (a file of that name is ./{name})");
        return Err(Failure::usage(message));
    };
    out.write_all(text.as_bytes())?;
    Ok(Status::Accepted)
}
