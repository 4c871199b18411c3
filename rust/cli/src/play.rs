//! `sgub play FILE`: the writes of a file, from its start or from a frame, call by call, or how many there are.

mod options;
mod summary;
mod text;

use crate::input;
use crate::status::{Failure, Status};
use options::Options;
use sgub::{Refusal, StreamPlayer, WriteRecord};
use std::ffi::{OsStr, OsString};
use std::io::{BufWriter, Write};
use summary::Summary;

/// Plays one file. File and index are read before anything is said of them.
pub fn run(arguments: &[OsString], out: &mut impl Write) -> Result<Status, Failure> {
    let (options, rest) = Options::read(arguments)?;
    let (_, files) = input::files(&rest, &[])?;
    let [name] = files.as_slice() else {
        return Err(Failure::usage("play takes one file"));
    };
    let index = options.index.as_deref();
    let read: Vec<&OsStr> = [*name].into_iter().chain(index).collect();
    input::standard_input_once(&read)?;
    let file = input::read(name)?;
    let index = index.map(input::read).transpose()?;
    // Standard output is written line by line, which is too slow for many writes.
    let mut out = BufWriter::with_capacity(1 << 16, out);
    let status = match start(&file, index, options.from) {
        Ok(player) => {
            play(player, &file, &options, &mut out)?;
            Status::Accepted
        }
        Err(refusal) => {
            writeln!(out, "{refusal}")?;
            Status::Refused
        }
    };
    out.flush()?;
    Ok(status)
}

/// The player of a file, at the frame that is asked for. Without an index it is built first.
fn start(file: &[u8], index: Option<Vec<u8>>, from: Option<u32>) -> Result<StreamPlayer, Refusal> {
    let mut player = StreamPlayer::start(file)?;
    if let Some(frame) = from {
        let index = match index {
            Some(index) => index,
            None => sgub::build_index(file)?,
        };
        player.jump_to_frame(file, &index, frame)?;
    }
    Ok(player)
}

/// Plays as many vsyncs as are asked for.
fn play(
    mut player: StreamPlayer,
    file: &[u8],
    options: &Options,
    out: &mut impl Write,
) -> Result<(), Failure> {
    let frames = player.frame_count() - player.frame_index();
    let to_the_end = u64::from(frames) + u64::from(!player.repeats());
    let mut run = vec![WriteRecord::default(); options.run];
    let mut summary = options.summary.then(Summary::new);
    if summary.is_some() {
        summary::head(out)?;
    }
    for vsync in 1..=options.vsyncs.unwrap_or(to_the_end) {
        loop {
            let told = player
                .advance_vsync(file, &mut run)
                .expect("the library refuses no player its own file");
            let writes = &run[..told.count];
            match &mut summary {
                Some(summary) => summary.add(writes),
                None => text::call(out, vsync, writes, told.complete)?,
            }
            if told.complete {
                break;
            }
        }
        if let Some(summary) = &mut summary {
            summary.vsync(out, vsync)?;
        }
    }
    if let Some(summary) = summary {
        summary.total(out)?;
    }
    Ok(())
}
