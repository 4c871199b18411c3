//! The format sheet's rule of comparison, applied to what the original plays.

use super::memory::Memory;
use crate::model::fields::number;
use crate::oracle::{self, Player, Vsync};
use sgub::{Header, WriteRecord};
use sgub_cli::Difference;

/// The rule. Its memory is used again for each pair.
pub struct Rule {
    /// PCM memory after the openings.
    images: [Memory; 2],
}

impl Rule {
    /// The rule, before any pair.
    pub fn new() -> Self {
        Self {
            images: [(); 2].map(|()| Memory::new()),
        }
    }

    /// The images that the last pair leaves.
    pub fn images(&self) -> [&[u8]; 2] {
        self.images.each_ref().map(Memory::bytes)
    }

    /// The first difference of two accepted files with these headers.
    ///
    /// # Errors
    /// A file that the original refuses, or does not play as the rule has it.
    pub fn difference(
        &mut self,
        files: [&[u8]; 2],
        headers: &[Header; 2],
    ) -> Result<Option<Difference>, String> {
        let [master, other] = files.map(opening);
        let openings = [master?, other?];
        self.leave(&openings);
        let [master, other] = headers;
        if master.repeats != other.repeats {
            let repeats = headers.map(|header| header.repeats);
            return Ok(Some(Difference::Repeat(repeats)));
        }
        if master.frame_count != other.frame_count {
            let counts = headers.map(|header| header.frame_count);
            return Ok(Some(Difference::FrameCount(counts)));
        }
        let found = in_openings(&openings).or_else(|| self.in_images());
        match found {
            Some(difference) => Ok(Some(difference)),
            None => in_frames(files, &openings, master.frame_count),
        }
    }

    /// Makes the images those that the openings leave.
    fn leave(&mut self, openings: &[Vec<oracle::Write>; 2]) {
        for (image, opening) in self.images.iter_mut().zip(openings) {
            image.begin();
            for (_, address, value) in opening.iter().filter(|write| write.0 == 2) {
                image.put(*address as usize, *value);
            }
        }
    }

    /// The first byte of PCM memory that is not the same.
    fn in_images(&self) -> Option<Difference> {
        let [master, other] = self.images();
        // Equal memories are the rule, and a comparison as a whole is quicker than one byte by byte.
        if master == other {
            return None;
        }
        let address = master.iter().zip(other).position(|(a, b)| a != b)?;
        let values = [master[address], other[address]];
        Some(Difference::Pcm { address, values })
    }
}

/// The opening's writes, by the original: those of the first vsync of a copy that has one empty frame in place of its frames.
fn opening(file: &[u8]) -> Result<Vec<oracle::Write>, String> {
    let field = |at: usize| number(&file[at..at + 4]) as usize;
    let (frames, size_at) = match file[4] {
        1 => (20 + 5 * field(12), 16),
        _ => (field(28), 32),
    };
    let mut alone = file[..frames].to_vec();
    alone.extend([0, 0]);
    let size = alone.len() as u32;
    alone[8..12].copy_from_slice(&1_u32.to_be_bytes());
    alone[size_at..size_at + 4].copy_from_slice(&size.to_be_bytes());
    let mut vsync = Vsync::default();
    Player::new(&alone)?.advance_vsync(&mut vsync);
    Ok(vsync.writes)
}

/// The first of the openings' writes to the cores that is not the same.
fn in_openings(openings: &[Vec<oracle::Write>; 2]) -> Option<Difference> {
    let cores = openings.each_ref().map(|opening| {
        let writes = opening.iter().filter(|write| write.0 < 2);
        writes.copied().collect::<Vec<_>>()
    });
    let (write, writes) = first(cores.each_ref().map(Vec::as_slice))?;
    Some(Difference::Opening { write, writes })
}

/// The first difference in so many frames.
fn in_frames(
    files: [&[u8]; 2],
    openings: &[Vec<oracle::Write>; 2],
    frames: u32,
) -> Result<Option<Difference>, String> {
    let [master, other] = files.map(Player::new);
    let mut players = [master?, other?];
    let mut vsyncs = [(); 2].map(|()| Vsync::default());
    for frame in 1..=frames {
        for (player, vsync) in players.iter_mut().zip(&mut vsyncs) {
            player.advance_vsync(vsync);
        }
        if frame == 1 {
            // The first vsync plays the opening too.
            for (vsync, opening) in vsyncs.iter_mut().zip(openings) {
                if !vsync.writes.starts_with(opening) {
                    return Err(String::from(
                        "the first vsync does not begin with the opening",
                    ));
                }
                vsync.writes.drain(..opening.len());
            }
        }
        let lists = vsyncs.each_ref().map(|vsync| vsync.writes.as_slice());
        if let Some((write, writes)) = first(lists) {
            return Ok(Some(Difference::Frame {
                frame,
                write,
                writes,
            }));
        }
    }
    Ok(None)
}

/// The number of the first write that is not the same in both lists, and the writes.
fn first(lists: [&[oracle::Write]; 2]) -> Option<(u64, [Option<WriteRecord>; 2])> {
    let [a, b] = lists;
    let same = a.iter().zip(b).take_while(|(a, b)| a == b).count();
    let writes = lists.map(|list| {
        list.get(same).map(|(target, address, value)| WriteRecord {
            target: *target,
            address: *address,
            value: *value,
        })
    });
    (writes != [None, None]).then_some((same as u64 + 1, writes))
}
