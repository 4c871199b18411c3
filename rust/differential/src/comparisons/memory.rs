//! PCM memory, begun anew for each file. Only what was written is set back: that is mostly little of the 1,048,576 bytes.

use sgub::IMAGE_SIZE;
use std::ops::Range;

/// What each byte is before a write.
const UNWRITTEN: u8 = 0x80;

/// PCM memory.
pub struct Memory {
    bytes: Vec<u8>,
    /// Where a byte was written, from the lowest to the highest address.
    written: Range<usize>,
}

impl Memory {
    /// Memory that nothing was written to.
    pub fn new() -> Self {
        Self {
            bytes: vec![UNWRITTEN; IMAGE_SIZE],
            written: 0..0,
        }
    }

    /// Makes it memory that nothing was written to.
    pub fn begin(&mut self) {
        self.bytes[self.written.clone()].fill(UNWRITTEN);
        self.written = 0..0;
    }

    /// Puts a byte at an address.
    pub fn put(&mut self, address: usize, value: u8) {
        self.bytes[address] = value;
        if self.written.is_empty() {
            self.written = address..address + 1;
        } else {
            self.written.start = self.written.start.min(address);
            self.written.end = self.written.end.max(address + 1);
        }
    }

    /// All bytes.
    pub fn bytes(&self) -> &[u8] {
        &self.bytes
    }
}

#[cfg(test)]
mod tests {
    use super::*;

    #[test]
    fn it_begins_anew() {
        let mut memory = Memory::new();
        for address in [7, 3, IMAGE_SIZE - 1, 5] {
            memory.put(address, address as u8);
            assert_eq!(memory.bytes()[address], address as u8);
        }
        memory.begin();
        memory.put(0, 1);
        memory.begin();
        assert!(memory.bytes() == vec![UNWRITTEN; IMAGE_SIZE]);
    }
}
