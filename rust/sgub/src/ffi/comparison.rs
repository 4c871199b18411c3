//! The comparison, as `include/sgub.h` declares it.

/// `struct sgub_compared`
#[repr(C)]
pub struct Compared {
    pub file: u32,
    pub number: u32,
    pub place: u64,
    pub passed: bool,
}

// Safe to call with the pointers and lengths of four slices: by its proof the library reads within all, writes within the
// images only, and keeps no pointer. Exclusive slices overlap no other.
unsafe extern "C" {
    fn sgub_compare(
        master: *const u8,
        master_length: usize,
        other: *const u8,
        other_length: usize,
        master_image: *mut u8,
        master_room: usize,
        other_image: *mut u8,
        other_room: usize,
    ) -> Compared;
}

pub fn compare(
    master: &[u8],
    other: &[u8],
    master_image: &mut [u8],
    other_image: &mut [u8],
) -> Compared {
    // SAFETY: pointers and lengths of four slices.
    unsafe {
        sgub_compare(
            master.as_ptr(),
            master.len(),
            other.as_ptr(),
            other.len(),
            master_image.as_mut_ptr(),
            master_image.len(),
            other_image.as_mut_ptr(),
            other_image.len(),
        )
    }
}
