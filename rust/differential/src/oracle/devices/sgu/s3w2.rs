//! Stand-in for the sound core that the original plays into.
//!
//! It makes no sound. A pair of cores either records the writes of both in one sequence, so that their order over both
//! cores and PCM memory is kept, or only counts them. Which of the two is tested at each write; the counting sink is for
//! benchmarks, where that test is one well predicted branch beside the original's own borrow of the core.

use std::cell::RefCell;
use std::rc::Rc;

/// Bytes of PCM memory, a limit of the format that the original takes from here.
pub const PCM_RAM_SIZE: usize = 1024 * 1024;

/// One write: target, address and value, in the form that the original gives its device writes.
pub type Write = (u8, u32, u8);

/// Both cores, as the original wants them.
pub type Cores = [Rc<RefCell<S3w2Sound>>; 2];

/// The target that stands for PCM memory in a recorded write.
const PCM: u8 = 2;

/// One sound core; only the two calls of a player exist.
pub struct S3w2Sound {
    core: u8,
    sink: Sink,
}

enum Sink {
    Record(Rc<RefCell<Recording>>),
    Count(Tally),
}

impl S3w2Sound {
    /// Two cores that record into the recording beside them.
    pub fn recording() -> (Cores, Rc<RefCell<Recording>>) {
        let recording = Rc::new(RefCell::new(Recording::default()));
        let cores = Self::pair(|| Sink::Record(Rc::clone(&recording)));
        (cores, recording)
    }

    /// Two cores that count, each for itself.
    pub fn counting() -> Cores {
        Self::pair(|| Sink::Count(Tally::default()))
    }

    fn pair(sink: impl Fn() -> Sink) -> Cores {
        [0, 1].map(|core| Rc::new(RefCell::new(Self { core, sink: sink() })))
    }

    /// What a counting core has counted.
    pub fn tally(&self) -> Option<Tally> {
        match &self.sink {
            Sink::Record(_) => None,
            Sink::Count(tally) => Some(*tally),
        }
    }

    /// A register or wave byte of this core.
    #[inline]
    pub fn write_register(&mut self, address: u32, value: u8) {
        match &mut self.sink {
            Sink::Record(recording) => recording.borrow_mut().register(self.core, address, value),
            Sink::Count(tally) => tally.add(address, value),
        }
    }

    /// A byte of PCM memory. The original calls both cores for each.
    #[inline]
    pub fn write_pcm_ram(&mut self, address: u32, value: u8) {
        match &mut self.sink {
            Sink::Record(recording) => recording.borrow_mut().pcm(self.core, address, value),
            Sink::Count(tally) => tally.add(address, value),
        }
    }
}

/// The writes of both cores in order. A PCM write, two calls, is one write here.
#[derive(Default)]
pub struct Recording {
    writes: Vec<Write>,
    /// The last write is a PCM write that only core 0 has.
    half: bool,
}

impl Recording {
    fn register(&mut self, core: u8, address: u32, value: u8) {
        self.assert_whole();
        self.writes.push((core, address, value));
    }

    fn pcm(&mut self, core: u8, address: u32, value: u8) {
        let write = (PCM, address, value);
        if core == 0 {
            self.assert_whole();
            self.writes.push(write);
        } else {
            assert!(
                self.half && self.writes.last() == Some(&write),
                "core 1 got a PCM write that core 0 did not get just before"
            );
        }
        self.half = core == 0;
    }

    fn assert_whole(&self) {
        assert!(!self.half, "core 0 got a PCM write that core 1 did not");
    }

    /// Moves the writes so far into `writes` and takes over its memory.
    pub fn take(&mut self, writes: &mut Vec<Write>) {
        self.assert_whole();
        writes.clear();
        std::mem::swap(&mut self.writes, writes);
    }
}

/// A number of calls, and a sum over them so that no call can be optimised away.
#[derive(Clone, Copy, Debug, Default, PartialEq, Eq)]
pub struct Tally {
    /// Calls: a PCM write is one for each core.
    pub calls: u64,
    /// The sum of `address * 256 + value`.
    pub sum: u64,
}

impl Tally {
    #[inline]
    fn add(&mut self, address: u32, value: u8) {
        self.calls += 1;
        self.sum = self
            .sum
            .wrapping_add(u64::from(address) << 8 | u64::from(value));
    }
}

#[cfg(test)]
mod tests {
    use super::*;

    #[test]
    fn order_is_kept_over_both_cores_and_pcm() {
        let (cores, recording) = S3w2Sound::recording();
        cores[1].borrow_mut().write_register(0x8ff, 1);
        for core in &cores {
            core.borrow_mut().write_pcm_ram(5, 2);
        }
        cores[0].borrow_mut().write_register(3, 3);
        let mut writes = Vec::new();
        recording.borrow_mut().take(&mut writes);
        assert_eq!(writes, [(1, 0x8ff, 1), (2, 5, 2), (0, 3, 3)]);
    }

    #[test]
    #[should_panic(expected = "core 1 did not")]
    fn a_pcm_write_to_core_0_alone_is_noticed() {
        let (cores, _) = S3w2Sound::recording();
        cores[0].borrow_mut().write_pcm_ram(5, 2);
        cores[0].borrow_mut().write_register(5, 2);
    }

    #[test]
    #[should_panic(expected = "core 0 did not")]
    fn two_different_pcm_writes_are_noticed() {
        let (cores, _) = S3w2Sound::recording();
        cores[0].borrow_mut().write_pcm_ram(5, 2);
        cores[1].borrow_mut().write_pcm_ram(5, 3);
    }
}
