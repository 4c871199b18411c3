//! Indexes and jumps, as `include/sgub.h` declares them.

use super::Player;

/// `struct sgub_indexed`
#[repr(C)]
pub struct Indexed {
    pub number: u32,
    pub place: u64,
    pub size: u64,
}

/// `struct sgub_jumped`
#[repr(C)]
pub struct Jumped {
    pub number: u32,
    pub place: u64,
}

// Safe to call with the pointers and lengths of slices, and a pointer to a player: by its proof the library reads within them,
// writes only to what is lent as `&mut`, and keeps no pointer. A shared and an exclusive reference do not overlap.
unsafe extern "C" {
    fn sgub_index(file: *const u8, length: usize, buffer: *mut u8, room: usize) -> Indexed;
    fn sgub_jump(
        player: *mut Player,
        file: *const u8,
        length: usize,
        index: *const u8,
        index_length: usize,
        frame: u32,
    ) -> Jumped;
}

pub fn index(file: &[u8], buffer: &mut [u8]) -> Indexed {
    // SAFETY: pointers and lengths of two slices.
    unsafe { sgub_index(file.as_ptr(), file.len(), buffer.as_mut_ptr(), buffer.len()) }
}

pub fn jump(player: &mut Player, file: &[u8], index: &[u8], frame: u32) -> Jumped {
    // SAFETY: pointers and lengths of two slices, and a pointer to one player, all lent for the call.
    unsafe {
        sgub_jump(
            player,
            file.as_ptr(),
            file.len(),
            index.as_ptr(),
            index.len(),
            frame,
        )
    }
}
