//! What the original says of single files.

use crate::Answer;
use differential::oracle::{self, Player, Vsync, messages};
use std::fs;
use std::io::{self, Write};

/// A line for each file: what the original says of it.
pub fn verdict(files: &[&str], out: &mut impl Write) -> Answer {
    let mut all = true;
    for name in files {
        match oracle::verdict(&read(name)?) {
            Ok(accepted) => {
                let (version, frames) = (accepted.version, accepted.frame_count);
                writeln!(out, "{name}: accepted, version {version}, frames {frames}")?;
            }
            Err(message) => {
                all = false;
                let numbers = messages::numbers(&message);
                writeln!(out, "{name}: refused, {message} {numbers:?}")?;
            }
        }
    }
    Ok(all)
}

/// The writes of the first vsyncs, a line for each.
pub fn play(file: &str, vsyncs: u64, out: &mut impl Write) -> Answer {
    let mut player = match Player::new(&read(file)?) {
        Ok(player) => player,
        Err(message) => return refused(&message, out),
    };
    let mut vsync = Vsync::default();
    for number in 1..=vsyncs {
        player.advance_vsync(&mut vsync);
        let frame = player.frame_index();
        writeln!(out, "vsync {number}, frame {frame}")?;
        list(out, "", &vsync.writes)?;
        list(out, "device ", &vsync.device_writes)?;
        if player.is_finished() {
            writeln!(out, "finished")?;
            break;
        }
    }
    Ok(true)
}

fn list(out: &mut impl Write, prefix: &str, writes: &[oracle::Write]) -> io::Result<()> {
    for (target, address, value) in writes {
        writeln!(out, "  {prefix}{target} 0x{address:06X} 0x{value:02X}")?;
    }
    Ok(())
}

/// Repacks a master as the original does, which tests nothing of it.
pub fn repack(master: &str, result: &str, out: &mut impl Write) -> Answer {
    let master = read(master)?;
    if oracle::asks_for_too_much(&master) {
        return Err("the original would reserve memory for more than the file holds".into());
    }
    match oracle::repack(&master) {
        Ok(bytes) => {
            fs::write(result, &bytes)?;
            writeln!(out, "{} bytes", bytes.len())?;
            Ok(true)
        }
        Err(message) => refused(&message, out),
    }
}

fn refused(message: &str, out: &mut impl Write) -> Answer {
    writeln!(out, "refused, {message}")?;
    Ok(false)
}

fn read(name: &str) -> Result<Vec<u8>, String> {
    fs::read(name).map_err(|error| format!("{name}: {error}"))
}
