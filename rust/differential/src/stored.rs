//! What all stored vectors have: how numbers are written, the mark behind the last vector, and the number that stands for
//! many values.

/// The mark behind the last vector, where the length of a file would stand.
pub const END: u32 = u32::MAX;

/// Puts numbers behind the bytes, four bytes each, highest first.
pub fn put(bytes: &mut Vec<u8>, numbers: &[u32]) {
    bytes.extend(numbers.iter().flat_map(|number| number.to_be_bytes()));
}

/// The number that stands for values: it starts at 0x811C9DC5, and each value makes it 33 times itself and the value.
pub fn mixed(values: impl IntoIterator<Item = u32>) -> u32 {
    values.into_iter().fold(0x811C_9DC5, |sum: u32, value| {
        sum.wrapping_mul(33).wrapping_add(value)
    })
}
