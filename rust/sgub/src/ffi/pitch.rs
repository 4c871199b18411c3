//! The pitch of a note, as `include/sgub.h` declares it.

/// `struct sgub_frequency`
#[repr(C)]
pub struct Frequency {
    pub number: u32,
    pub place: u64,
    pub pitch: u16,
}

unsafe extern "C" {
    fn sgub_frequency(note: u8, semitones: i8) -> Frequency;
}

#[inline]
pub fn frequency(note: u8, semitones: i8) -> Frequency {
    // SAFETY: all is passed by value.
    unsafe { sgub_frequency(note, semitones) }
}
