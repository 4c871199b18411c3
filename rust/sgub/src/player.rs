//! The player.

use crate::{Card, Refusal, ffi, refusal};

/// One write that playing makes.
#[derive(Clone, Copy, Debug, Default, PartialEq, Eq, Hash)]
#[repr(C)]
pub struct WriteRecord {
    /// 0 or 1, a core; 2, PCM memory, which both cores have; 3 to 11, a device.
    pub target: u8,
    /// The address within the target.
    pub address: u32,
    /// The byte that is written.
    pub value: u8,
}

/// What a call of [`StreamPlayer::advance_vsync`] did.
#[derive(Clone, Copy, Debug, PartialEq, Eq)]
#[must_use]
pub struct Vsync {
    /// How many writes stand at the front of the run.
    pub count: usize,
    /// Whether no write of this vsync is left, so that the next call begins the next vsync.
    pub complete: bool,
}

/// The player of a stream file. It keeps no part of the file, which is lent again to each call.
///
/// # Examples
///
/// ```
/// use sgub::{StreamPlayer, WriteRecord};
///
/// // Version 1, one empty frame.
/// let file = b"SGUB\x01\x10\0\0\0\0\0\x01\0\0\0\0\0\0\0\x16\0\0";
/// let mut player = StreamPlayer::start(file).unwrap();
/// let mut run = [WriteRecord::default(); 64];
/// let mut writes = 0;
/// while !player.is_finished() {
///     let vsync = player.advance_vsync(file, &mut run).unwrap();
///     writes += run[..vsync.count].len();
/// }
/// // The closing writes silence both cores.
/// assert_eq!(writes, 32);
/// ```
#[derive(Clone, Debug, PartialEq, Eq)]
pub struct StreamPlayer(ffi::Player);

impl StreamPlayer {
    /// Checks a file and starts its player, which has played nothing yet.
    ///
    /// # Errors
    ///
    /// The refusal that [`check`](crate::check) gives.
    pub fn start(file: &[u8]) -> Result<Self, Refusal> {
        let started = ffi::start(file);
        match refusal(started.number, started.place) {
            Some(refusal) => Err(refusal),
            None => Ok(Self(started.player)),
        }
    }

    /// Gives as many of the vsync's remaining writes as the run holds, in its first records, and leaves the other records
    /// as they are.
    ///
    /// A vsync may take several calls: it is over when one says that it is complete. With `n` records its `w` writes take
    /// `w / n` calls, rounded up, and at least one; with no records they never come to an end. The first vsync plays the
    /// opening and frame 1. Behind the last frame a repeating file plays frame 1 again; another plays the closing writes,
    /// and then the player is finished and every further vsync is empty.
    ///
    /// # Errors
    ///
    /// Refusal 25 at place 0: the player and the file do not belong together, and player and run are as they were. With the
    /// player's own file this never happens, and a finished player takes any file.
    #[inline]
    pub fn advance_vsync(
        &mut self,
        file: &[u8],
        run: &mut [WriteRecord],
    ) -> Result<Vsync, Refusal> {
        let vsync = ffi::advance_vsync(&mut self.0, file, run);
        match refusal(vsync.number, vsync.place) {
            Some(refusal) => Err(refusal),
            None => Ok(Vsync {
                count: vsync.count,
                complete: vsync.complete,
            }),
        }
    }

    /// Sets the player to a frame, counted from 1, by the index that [`build_index`](crate::build_index) gives.
    ///
    /// The next vsync gives that frame's writes, and the later ones follow as usual. Writes that are left over from a vsync are
    /// dropped, wave sources stay, and the opening is not played. A finished player plays again. The whole file is checked at
    /// each call.
    ///
    /// # Errors
    ///
    /// The first refusal that applies, and the player is as it was: 1 to 20 where [`check`](crate::check) refuses the file; 25
    /// where player and file do not belong together, so that the file has another header, other cards or another use of target
    /// 11 than the player's; 26 where the index is not the file's; 27 where the frame is 0 or above the frame count.
    pub fn jump_to_frame(&mut self, file: &[u8], index: &[u8], frame: u32) -> Result<(), Refusal> {
        let jumped = ffi::index::jump(&mut self.0, file, index, frame);
        match refusal(jumped.number, jumped.place) {
            Some(refusal) => Err(refusal),
            None => Ok(()),
        }
    }

    /// Format version, 1 to 4.
    #[must_use]
    pub fn version(&self) -> u8 {
        self.0.header.version
    }

    /// Frames of one pass.
    #[must_use]
    pub fn frame_count(&self) -> u32 {
        self.0.header.frame_count
    }

    /// Frames of this pass that have begun.
    #[must_use]
    pub fn frame_index(&self) -> u32 {
        self.0.progress.frame_index
    }

    /// Whether frame 1 follows the last frame.
    #[must_use]
    pub fn repeats(&self) -> bool {
        self.0.header.repeat
    }

    /// Whether every closing write was given.
    #[must_use]
    pub fn is_finished(&self) -> bool {
        self.0.progress.finished
    }

    /// Frame period; 0 below version 4.
    #[must_use]
    pub fn frame_period(&self) -> u32 {
        self.0.header.frame_period
    }

    /// Whether some operation of the file has target 11.
    #[must_use]
    pub fn uses_si22(&self) -> bool {
        self.0.uses_si22
    }

    /// The cards that the file asks for, in the order of their slots.
    #[must_use]
    pub fn card_requirements(&self) -> impl ExactSizeIterator<Item = Card> + '_ {
        let table = &self.0.cards;
        table.cards[..table.count].iter().map(|card| (*card).into())
    }

    /// The wave pool last copied to a channel of a core; none where none was, and none outside of 2 cores with 8 channels.
    #[must_use]
    pub fn wave_source(&self, core: usize, channel: usize) -> Option<u16> {
        let source = ffi::wave_source(self.0, core, channel);
        source.copied.then_some(source.pool)
    }
}
