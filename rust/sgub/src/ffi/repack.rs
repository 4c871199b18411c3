//! Repacking, as `include/sgub.h` declares it.

/// `struct sgub_repacked`
#[repr(C)]
pub struct Repacked {
    pub number: u32,
    pub place: u64,
    pub size: u64,
}

// Safe to call with the pointers and lengths of two slices: by its proof the library reads within both, writes within the
// buffer only, and keeps no pointer. A shared and an exclusive slice do not overlap.
unsafe extern "C" {
    fn sgub_repack(file: *const u8, length: usize, buffer: *mut u8, room: usize) -> Repacked;
}

pub fn repack(file: &[u8], buffer: &mut [u8]) -> Repacked {
    // SAFETY: pointers and lengths of two slices.
    unsafe { sgub_repack(file.as_ptr(), file.len(), buffer.as_mut_ptr(), buffer.len()) }
}
