//! Two files played by the library, each with runs of its own, and what a listener of each hears: the format sheet's demand 3.

use super::memory::Memory;
use crate::rng::Rng;
use sgub::{StreamPlayer, WriteRecord};

/// Run lengths that are drawn from.
const RUNS: &[usize] = &[0, 1, 2, 7, 64, 64, 300, 4096, 4096];

/// Listeners to both files. Its memory is used again for each pair.
pub struct Listening {
    rng: Rng,
    run: Vec<WriteRecord>,
    listeners: [Listener; 2],
}

/// What one player was heard to do: the register writes of the current vsync, and PCM memory.
struct Listener {
    registers: Vec<WriteRecord>,
    memory: Memory,
    /// The addresses that the current vsync put a byte at.
    touched: Vec<usize>,
}

impl Listening {
    /// Run lengths are drawn by this seed.
    pub fn new(seed: u64) -> Self {
        Self {
            rng: Rng::new(seed),
            run: vec![WriteRecord::default(); RUNS.iter().copied().max().unwrap_or(0)],
            listeners: [(); 2].map(|()| Listener {
                registers: Vec::new(),
                memory: Memory::new(),
                touched: Vec::new(),
            }),
        }
    }

    /// The first vsync after which the listeners of two accepted files do not hold the same; all frames of both files are
    /// played, and some vsyncs behind them.
    ///
    /// # Errors
    /// A call that the library refuses.
    pub fn difference(&mut self, files: [&[u8]; 2]) -> Result<Option<u64>, String> {
        let [master, other] = files.map(StreamPlayer::start);
        let refused = |refusal| format!("the library refuses to start: {refusal:?}");
        let mut players = [master.map_err(refused)?, other.map_err(refused)?];
        let frames = players.each_ref().map(StreamPlayer::frame_count);
        let most = u64::from(frames[0].max(frames[1]));
        for listener in &mut self.listeners {
            listener.memory.begin();
        }
        for vsync in 1..=most + 2 + u64::from(self.rng.below(3)) {
            for index in [0, 1] {
                self.advance(&mut players[index], files[index], index)?;
            }
            let [ours, theirs] = &self.listeners;
            // The memories were the same before this vsync, so they can differ only where it put a byte.
            let mut touched = ours.touched.iter().chain(&theirs.touched);
            let same = ours.registers == theirs.registers
                && touched.all(|at| ours.memory.bytes()[*at] == theirs.memory.bytes()[*at]);
            if !same {
                return Ok(Some(vsync));
            }
        }
        Ok(None)
    }

    /// One vsync of a player, by calls with runs of any length.
    fn advance(
        &mut self,
        player: &mut StreamPlayer,
        file: &[u8],
        index: usize,
    ) -> Result<(), String> {
        let listener = &mut self.listeners[index];
        listener.registers.clear();
        listener.touched.clear();
        loop {
            let run = &mut self.run[..self.rng.pick(RUNS)];
            let told = player
                .advance_vsync(file, run)
                .map_err(|error| error.to_string())?;
            for record in &run[..told.count] {
                listener.hear(*record);
            }
            if told.complete {
                return Ok(());
            }
        }
    }
}

impl Listener {
    fn hear(&mut self, record: WriteRecord) {
        match record.target {
            0 | 1 => self.registers.push(record),
            2 => {
                let at = record.address as usize;
                self.memory.put(at, record.value);
                self.touched.push(at);
            }
            _ => {}
        }
    }
}
