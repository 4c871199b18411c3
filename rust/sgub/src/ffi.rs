//! `include/sgub.h` again, and a safe function for each of its functions.
//!
//! No compiler compares these declarations with the header. A test does, with the help of a C compiler.

use crate::{PoolEntry, WriteRecord};

/// `struct sgub_verdict`
#[repr(C)]
pub struct Verdict {
    pub number: u32,
    pub place: u64,
    pub version: u8,
    pub repeats: bool,
    pub uses_si22: bool,
    pub card_count: u8,
    pub frame_period: u32,
    pub frame_count: u32,
    pub pool_count: u32,
    pub initial_count: u32,
    pub directory_offset: u32,
    pub initial_start: u32,
    pub frame_start: u64,
    pub total_size: u32,
}

/// `struct sgub_card_requirement`
#[derive(Clone, Copy, Debug, PartialEq, Eq)]
#[repr(C)]
pub struct CardRequirement {
    pub slot: u8,
    pub id_length: u8,
    pub id_offset: u32,
    pub bulk_start: u32,
    pub bulk_length: u32,
    pub id: [u8; 16],
}

/// `struct sgub_card`
#[repr(C)]
pub struct Card {
    pub number: u32,
    pub place: u64,
    pub card: CardRequirement,
}

/// `struct sgub_pool`
#[repr(C)]
pub struct Pool {
    pub number: u32,
    pub place: u64,
    pub kind: u8,
    pub offset: u64,
    pub size: u64,
}

/// `struct sgub_pools`
#[repr(C)]
pub struct Pools {
    pub number: u32,
    pub place: u64,
    pub count: u64,
}

/// `struct sgub_header`
#[derive(Clone, Copy, Debug, PartialEq, Eq)]
#[repr(C)]
pub struct Header {
    pub version: u8,
    pub repeat: bool,
    pub frame_period: u32,
    pub card_count: u8,
    pub frame_count: u32,
    pub pool_count: u32,
    pub initial_count: u32,
    pub directory_offset: u32,
    pub initial_start: u32,
    pub frame_start: usize,
    pub total_size: u32,
}

/// `struct sgub_card_table`
#[derive(Clone, Copy, Debug, PartialEq, Eq)]
#[repr(C)]
pub struct CardTable {
    pub cards: [CardRequirement; 8],
    pub count: usize,
}

/// `struct sgub_wave_source`
#[derive(Clone, Copy, Debug, PartialEq, Eq)]
#[repr(C)]
pub struct WaveSource {
    pub copied: bool,
    pub pool: u16,
}

/// `struct sgub_progress`
#[derive(Clone, Copy, Debug, PartialEq, Eq)]
#[repr(C)]
pub struct Progress {
    pub part: u8,
    pub cursor: usize,
    pub operation_index: u32,
    pub operation_count: u32,
    pub write_index: u32,
    pub frame_index: u32,
    pub initialized: bool,
    pub finished: bool,
    pub wave_sources: [WaveSource; 16],
}

/// `struct sgub_player`
#[derive(Clone, Copy, Debug, PartialEq, Eq)]
#[repr(C)]
pub struct Player {
    pub header: Header,
    pub cards: CardTable,
    pub uses_si22: bool,
    pub progress: Progress,
}

/// `struct sgub_started`
#[repr(C)]
pub struct Started {
    pub number: u32,
    pub place: u64,
    pub player: Player,
}

/// `struct sgub_vsync`
#[repr(C)]
pub struct Vsync {
    pub number: u32,
    pub place: u64,
    pub count: usize,
    pub complete: bool,
}

// A function is safe to call with the pointer and the length of a slice: by its proof the library reads within them,
// writes only to what is lent as `&mut`, and keeps no pointer. The pointer of an empty slice is not null, as the header
// asks, and references do not overlap.
unsafe extern "C" {
    fn sgub_check(file: *const u8, length: usize) -> Verdict;
    fn sgub_card(file: *const u8, length: usize, index: usize) -> Card;
    fn sgub_pool(file: *const u8, length: usize, id: u16) -> Pool;
    fn sgub_pools(file: *const u8, length: usize, pools: *mut PoolEntry, room: usize) -> Pools;
    fn sgub_start(file: *const u8, length: usize) -> Started;
    fn sgub_advance_vsync(
        player: *mut Player,
        file: *const u8,
        length: usize,
        run: *mut WriteRecord,
        count: usize,
    ) -> Vsync;
    fn sgub_wave_source(player: Player, core: usize, channel: usize) -> WaveSource;
}

pub fn check(file: &[u8]) -> Verdict {
    // SAFETY: pointer and length of one slice.
    unsafe { sgub_check(file.as_ptr(), file.len()) }
}

pub fn card(file: &[u8], index: usize) -> Card {
    // SAFETY: pointer and length of one slice.
    unsafe { sgub_card(file.as_ptr(), file.len(), index) }
}

pub fn pool(file: &[u8], id: u16) -> Pool {
    // SAFETY: pointer and length of one slice.
    unsafe { sgub_pool(file.as_ptr(), file.len(), id) }
}

pub fn pools(file: &[u8], pools: &mut [PoolEntry]) -> Pools {
    // SAFETY: pointer and length of one slice each.
    unsafe { sgub_pools(file.as_ptr(), file.len(), pools.as_mut_ptr(), pools.len()) }
}

pub fn start(file: &[u8]) -> Started {
    // SAFETY: pointer and length of one slice.
    unsafe { sgub_start(file.as_ptr(), file.len()) }
}

#[inline]
pub fn advance_vsync(player: &mut Player, file: &[u8], run: &mut [WriteRecord]) -> Vsync {
    // SAFETY: pointer and length of one slice each, and a pointer to one player, all lent for the call.
    unsafe {
        sgub_advance_vsync(
            player,
            file.as_ptr(),
            file.len(),
            run.as_mut_ptr(),
            run.len(),
        )
    }
}

pub fn wave_source(player: Player, core: usize, channel: usize) -> WaveSource {
    // SAFETY: all is passed by value.
    unsafe { sgub_wave_source(player, core, channel) }
}

pub mod comparison;
pub mod index;
pub mod join;
pub mod pitch;
pub mod repack;

#[cfg(test)]
mod header;
#[cfg(test)]
mod library;
#[cfg(test)]
mod states;
