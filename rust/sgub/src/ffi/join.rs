//! Joining, as `include/sgub.h` declares it.

/// `struct sgub_joined`
#[repr(C)]
pub struct Joined {
    pub file: u32,
    pub number: u32,
    pub place: u64,
    pub size: u64,
}

// Safe to call with the pointers and lengths of three slices: by its proof the library reads within all, writes within the
// buffer only, and keeps no pointer. The files may overlap each other; an exclusive slice overlaps neither.
unsafe extern "C" {
    fn sgub_join(
        first: *const u8,
        first_length: usize,
        second: *const u8,
        second_length: usize,
        buffer: *mut u8,
        room: usize,
    ) -> Joined;
}

pub fn join(first: &[u8], second: &[u8], buffer: &mut [u8]) -> Joined {
    // SAFETY: pointers and lengths of three slices.
    unsafe {
        sgub_join(
            first.as_ptr(),
            first.len(),
            second.as_ptr(),
            second.len(),
            buffer.as_mut_ptr(),
            buffer.len(),
        )
    }
}
