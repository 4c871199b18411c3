//! The proved SGUB library for Rust: the verdict on a stream file, its cards and its pools, its player, indexes and
//! jumps, repacking, the comparison, joining, and the pitch of a note.
//!
//! The library is `crates/sgub` of this repository, and its contracts say what each function answers. This package only
//! declares its C functions again and makes them safe to call; it decides nothing about a file. Every function takes any
//! bytes.
#![deny(unsafe_code)]
#![warn(missing_docs)]

mod comparison;
#[allow(unsafe_code)]
mod ffi;
mod index;
mod join;
mod pitch;
mod player;
mod repack;

pub use comparison::{Comparison, IMAGE_SIZE, RefusedFile, Side, compare};
pub use index::{LONGEST_INDEX, build_index, build_index_into};
pub use join::{Piece, RefusedJoin, join, join_to_vec};
pub use pitch::frequency;
pub use player::{StreamPlayer, Vsync, WriteRecord};
pub use repack::{LONGEST_RESULT, repack, repack_to_vec};

use std::error::Error;
use std::fmt;

/// Why a file or a call is refused, as the format sheet's list has it. It is displayed as the command prints it,
/// `refused NUMBER PLACE`.
#[derive(Clone, Copy, Debug, PartialEq, Eq)]
pub struct Refusal {
    /// The number of the refusal: 1 to 20, for what makes a result or compares up to 24, 25 for a vsync call, for a jump 25 to 27
    /// too, 28 for a note, and for joining 29 and 30 too.
    pub number: u32,
    /// The place that the sheet gives for this number; at most the file's length.
    pub place: usize,
}

impl fmt::Display for Refusal {
    fn fmt(&self, f: &mut fmt::Formatter<'_>) -> fmt::Result {
        write!(f, "refused {} {}", self.number, self.place)
    }
}

impl Error for Refusal {}

/// What the header of an accepted file says, and whether its operations use target 11.
#[derive(Clone, Copy, Debug, PartialEq, Eq)]
pub struct Header {
    /// Format version, 1 to 4.
    pub version: u8,
    /// Whether frame 1 follows the last frame.
    pub repeats: bool,
    /// Whether some operation has target 11.
    pub uses_si22: bool,
    /// Cards; 0 below version 4.
    pub card_count: u8,
    /// Frame period; 0 below version 4.
    pub frame_period: u32,
    /// Frames.
    pub frame_count: u32,
    /// Pools; 0 in version 1.
    pub pool_count: u32,
    /// Records or operations of the opening.
    pub initial_count: u32,
    /// Where the pool directory starts; 20 in version 1, which has none.
    pub directory_offset: u32,
    /// Where the opening starts.
    pub initial_start: u32,
    /// Where the frames start.
    pub frame_start: u32,
    /// The file's length.
    pub total_size: u32,
}

/// A card that a file of version 4 asks for.
#[derive(Clone, Copy, Debug, PartialEq, Eq)]
pub struct Card {
    /// Slot, 0 to 7.
    pub slot: u8,
    /// Bytes of the name that count, 1 to 16.
    pub id_length: u8,
    /// Where the card shows its name.
    pub id_offset: u32,
    /// Where the range starts that FILL and COPY may write.
    pub bulk_start: u32,
    /// The length of that range; 0 for none.
    pub bulk_length: u32,
    /// The name, 0 behind its length.
    pub id: [u8; 16],
}

impl Card {
    /// The name.
    #[must_use]
    pub fn name(&self) -> &[u8] {
        &self.id[..usize::from(self.id_length)]
    }
}

impl From<ffi::CardRequirement> for Card {
    fn from(card: ffi::CardRequirement) -> Self {
        Self {
            slot: card.slot,
            id_length: card.id_length,
            id_offset: card.id_offset,
            bulk_start: card.bulk_start,
            bulk_length: card.bulk_length,
            id: card.id,
        }
    }
}

/// A pool of a file.
#[derive(Clone, Copy, Debug, PartialEq, Eq)]
pub struct Pool<'a> {
    /// 1 wave, 2 PCM, 3 card.
    pub kind: u8,
    /// The part of the file that is its payload.
    pub payload: &'a [u8],
}

/// An entry of the pool directory.
#[derive(Clone, Copy, Debug, Default, PartialEq, Eq)]
#[repr(C)]
pub struct PoolEntry {
    /// 1 wave, 2 PCM, 3 card.
    pub kind: u8,
    /// Bytes of payload.
    pub size: u32,
    /// Where the payload starts.
    pub offset: u32,
}

/// The verdict on a file: what the header of an accepted one says.
///
/// # Errors
/// The first refusal that applies, 1 to 20.
pub fn check(file: &[u8]) -> Result<Header, Refusal> {
    let verdict = ffi::check(file);
    if let Some(refusal) = refusal(verdict.number, verdict.place) {
        return Err(refusal);
    }
    Ok(Header {
        version: verdict.version,
        repeats: verdict.repeats,
        uses_si22: verdict.uses_si22,
        card_count: verdict.card_count,
        frame_period: verdict.frame_period,
        frame_count: verdict.frame_count,
        pool_count: verdict.pool_count,
        initial_count: verdict.initial_count,
        directory_offset: verdict.directory_offset,
        initial_start: verdict.initial_start,
        // At most the total size of an accepted file.
        frame_start: verdict.frame_start as u32,
        total_size: verdict.total_size,
    })
}

/// The card of a file by its index; `None` from the card count on.
///
/// The whole file is checked at each call.
///
/// # Errors
/// The refusal that [`check`] gives.
pub fn card(file: &[u8], index: usize) -> Result<Option<Card>, Refusal> {
    let found = ffi::card(file, index);
    if let Some(refusal) = refusal(found.number, found.place) {
        return Err(refusal);
    }
    // The name of a card has at least one byte; the library answers 0 throughout where there is no card.
    Ok((found.card.id_length > 0).then(|| found.card.into()))
}

/// The pool of a file by its id; `None` where an accepted file has no such pool.
///
/// The whole file is checked at each call.
///
/// # Errors
/// The refusal that [`check`] gives.
pub fn pool(file: &[u8], id: u16) -> Result<Option<Pool<'_>>, Refusal> {
    let pool = ffi::pool(file, id);
    if let Some(refusal) = refusal(pool.number, pool.place) {
        return Err(refusal);
    }
    Ok((pool.kind > 0).then(|| Pool {
        kind: pool.kind,
        payload: &file[pool.offset as usize..][..pool.size as usize],
    }))
}

/// The pools of a file, by their ids from 0 on.
///
/// The whole file is checked once.
///
/// # Errors
/// The refusal that [`check`] gives.
pub fn pools(file: &[u8]) -> Result<Vec<PoolEntry>, Refusal> {
    // An accepted file has at most so many pools, and 16 bytes of directory for each.
    let mut entries = vec![PoolEntry::default(); (file.len() / 16).min(65_536)];
    let pools = ffi::pools(file, &mut entries);
    if let Some(refusal) = refusal(pools.number, pools.place) {
        return Err(refusal);
    }
    entries.truncate(pools.count as usize);
    Ok(entries)
}

#[inline]
fn refusal(number: u32, place: u64) -> Option<Refusal> {
    (number > 0).then_some(Refusal {
        number,
        place: place as usize,
    })
}
