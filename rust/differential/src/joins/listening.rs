//! What the original plays of a joined file, beside what it plays of the two pieces one after the other.

use crate::model::fields::number;
use crate::oracle::{Player, Vsync, WaveSources};

/// Passes that are played where the joined file repeats.
const PASSES: u32 = 3;

/// How much the original played of a joined file.
#[derive(Clone, Copy, Debug, Default, PartialEq, Eq)]
pub struct Played {
    /// Vsyncs.
    pub vsyncs: u64,
    /// Their writes.
    pub writes: u64,
}

/// Holds a joined file against its pieces: in each pass the vsyncs of the first, then those of the second, its opening within its first
/// frame; three passes if the second repeats, else the closing writes and then nothing. The opening of the first is played once.
///
/// # Errors
/// What the original plays otherwise.
pub fn hold(joined: &[u8], [first, second]: [&[u8]; 2]) -> Result<Played, String> {
    let pools = number(&first[12..16]) as usize;
    let whole = Player::new(joined).map_err(|error| format!("original {error:?}"))?;
    let mut listener = Listener {
        whole,
        heard: [Vsync::default(), Vsync::default()],
        played: Played::default(),
    };
    // Without its closing writes and, from its second pass on, without its opening.
    let mut first = Piece::new(&repeating(first))?;
    let second_repeats = second[6] == 1;
    for pass in 1..=if second_repeats { PASSES } else { 1 } {
        let name = |name: &str| format!("pass {pass}, {name} file");
        listener.frames(&mut first, &name("first"))?;
        let sources = first.player.wave_sources();
        if pass == 1 && listener.whole.wave_sources() != sources {
            return Err(format!("wave sources behind the first file: {sources:?}"));
        }
        let mut second = Piece::new(second)?;
        listener.frames(&mut second, &name("second"))?;
        let sources = behind(sources, second.player.wave_sources(), pools);
        if pass == 1 && listener.whole.wave_sources() != sources {
            return Err(format!("wave sources behind the second file: {sources:?}"));
        }
        if !second_repeats {
            let closing = listener.vsync(&mut second.player);
            closing.map_err(|text| format!("closing writes: {text}"))?;
            listener.end()?;
        }
    }
    Ok(listener.played)
}

/// The file with its repeat byte set.
fn repeating(file: &[u8]) -> Vec<u8> {
    let mut file = file.to_vec();
    file[6] = 1;
    file
}

/// The wave sources that both files leave: the second's where it has any, renumbered.
fn behind(first: WaveSources, second: WaveSources, pools: usize) -> WaveSources {
    let source = |core: usize, channel: usize| match second[core][channel] {
        Some(pool) => Some((usize::from(pool) + pools) as u16),
        None => first[core][channel],
    };
    std::array::from_fn(|core| std::array::from_fn(|channel| source(core, channel)))
}

/// A piece that the original plays by itself.
struct Piece {
    player: Player,
    frames: u32,
}

impl Piece {
    fn new(file: &[u8]) -> Result<Self, String> {
        let frames = number(&file[8..12]);
        let player = Player::new(file)?;
        Ok(Self { player, frames })
    }
}

/// The joined file's player, and the vsyncs of both sides, whose memory is used again.
struct Listener {
    whole: Player,
    heard: [Vsync; 2],
    played: Played,
}

impl Listener {
    /// As many vsyncs as a piece has frames.
    fn frames(&mut self, piece: &mut Piece, name: &str) -> Result<(), String> {
        for frame in 1..=piece.frames {
            self.vsync(&mut piece.player)
                .map_err(|text| format!("{name}, frame {frame}: {text}"))?;
            if self.whole.is_finished() {
                return Err(format!("{name}, frame {frame}: finished"));
            }
        }
        Ok(())
    }

    /// A vsync of the joined file beside one of a piece.
    fn vsync(&mut self, piece: &mut Player) -> Result<(), String> {
        let [whole, part] = &mut self.heard;
        self.whole.advance_vsync(whole);
        piece.advance_vsync(part);
        if whole != part {
            let counts = [&*whole, &*part].map(|vsync| vsync.writes.len());
            return Err(format!(
                "other writes, so many joined and alone: {counts:?}"
            ));
        }
        self.played.vsyncs += 1;
        self.played.writes += whole.writes.len() as u64;
        Ok(())
    }

    /// Nothing comes behind the closing writes.
    fn end(&mut self) -> Result<(), String> {
        let is_finished = self.whole.is_finished();
        let [whole, _] = &mut self.heard;
        self.whole.advance_vsync(whole);
        match is_finished && *whole == Vsync::default() {
            true => Ok(()),
            false => Err(String::from("the joined file goes on behind its end")),
        }
    }
}

#[cfg(test)]
mod tests {
    use super::*;
    use crate::examples::example;
    use crate::joins::definition::joined;
    use crate::model::{Operation, Stream};

    /// The scale, the tune behind it, and both as one; the tune may repeat.
    fn files(repeat: bool) -> [Vec<u8>; 3] {
        let [scale, mut tune] = ["scale-2", "tune-2"].map(example);
        tune[6] = u8::from(repeat);
        let [first, second] = [&scale, &tune].map(|file| Stream::read_version_2(file));
        [joined(first, second).to_bytes(), scale, tune]
    }

    #[test]
    fn a_joined_file_sounds_as_its_pieces() {
        for (repeat, vsyncs) in [(false, 134), (true, 3 * 133)] {
            let [joined, first, second] = files(repeat);
            let played = hold(&joined, [&first, &second]).unwrap();
            assert_eq!(played.vsyncs, vsyncs);
        }
    }

    /// Something else is joined than the pieces that are played beside it.
    #[test]
    fn a_difference_is_noticed() {
        let [joined, first, second] = files(false);
        let [other, _, repeating] = files(true);
        for (joined, pieces, text) in [
            (&joined, [&second, &first], "pass 1, first file, frame 1"),
            (&joined, [&first, &first], "pass 1, second file, frame 1"),
            (&joined, [&first, &repeating], "pass 2, first file, frame 1"),
            (&other, [&first, &second], "closing writes"),
            (&first, [&first, &second], "pass 1, second file, frame 1"),
        ] {
            let error = hold(joined, pieces.map(|file| file.as_slice())).unwrap_err();
            assert!(error.starts_with(text), "{error}");
        }
        // The last value of the last frame, and a byte of the second's wave.
        let last = joined.len() - 1;
        for at in [last, 40 + 3 * 16 + 256 + 8] {
            let mut changed = joined.clone();
            changed[at] ^= 1;
            let error = hold(&changed, [&first, &second]).unwrap_err();
            assert!(error.contains("second file"), "{error}");
        }
    }

    /// Both pieces have the same wave, so that the writes do not tell from which pool it is copied.
    #[test]
    fn another_wave_source_is_noticed() {
        let [joined, first, second] = files(false);
        let mut stream = Stream::read_version_2(&joined);
        let mut copies = stream.frames[130].iter_mut();
        let pool = copies.find_map(|operation| match operation {
            Operation::Copy {
                target: 0, pool, ..
            } => Some(pool),
            _ => None,
        });
        let pool = pool.expect("the tune copies its wave in its first frame");
        assert_eq!(*pool, 2);
        *pool = 0;
        let error = hold(&stream.to_bytes(), [&first, &second]).unwrap_err();
        assert!(
            error.starts_with("wave sources behind the second"),
            "{error}"
        );
    }
}
