//! The fields of a file: where each stands and what it says, for those who break one.

use std::ops::Range;

/// A number in a file.
#[derive(Clone, Copy, Debug, PartialEq, Eq)]
pub struct Field {
    /// The place of its first byte.
    pub at: u32,
    /// Its bytes, 1 to 4.
    pub width: u8,
    /// What it says.
    pub role: Role,
}

impl Field {
    /// Its number in a file.
    pub fn read(self, file: &[u8]) -> u32 {
        number(&file[self.range()])
    }

    /// Puts the low bytes of a number there.
    pub fn write(self, file: &mut [u8], value: u32) {
        let bytes = &value.to_be_bytes()[4 - usize::from(self.width)..];
        file[self.range()].copy_from_slice(bytes);
    }

    fn range(self) -> Range<usize> {
        let at = self.at as usize;
        at..at + usize::from(self.width)
    }
}

/// The number that at most four bytes are, highest first.
pub fn number(bytes: &[u8]) -> u32 {
    bytes
        .iter()
        .fold(0, |sum, byte| sum << 8 | u32::from(*byte))
}

/// What a field says.
#[derive(Clone, Copy, Debug, PartialEq, Eq, PartialOrd, Ord)]
pub enum Role {
    /// The letters SGUB.
    Magic,
    /// Format version.
    Version,
    /// Voice count.
    Voices,
    /// 1 means repeat.
    Repeat,
    /// Bytes that are 0, in header and cards.
    Reserved,
    /// Frames.
    FrameCount,
    /// Opening records or operations.
    InitialCount,
    /// Pools.
    PoolCount,
    /// Where the directory starts.
    DirectoryOffset,
    /// Where the opening starts.
    InitialStart,
    /// Where the frames start.
    FrameStart,
    /// The file's length.
    TotalSize,
    /// Bytes of the header.
    HeaderSize,
    /// Cards.
    CardCount,
    /// Frame period.
    Period,
    /// A card's slot.
    Slot,
    /// Bytes of a card's name.
    NameLength,
    /// Where a card shows its name.
    NameOffset,
    /// Where a card's bulk range starts.
    BulkStart,
    /// Bytes of a card's bulk range.
    BulkLength,
    /// A byte of a card's name or of its padding.
    Name,
    /// A pool's id in the directory.
    PoolId,
    /// A pool's kind.
    PoolKind,
    /// A pool's codec.
    Codec,
    /// A pool's size.
    RawSize,
    /// A pool's size again.
    StoredSize,
    /// Where a pool's payload starts.
    PoolOffset,
    /// Records or operations of a frame.
    OperationCount,
    /// WRITE, FILL or COPY.
    Opcode,
    /// Target.
    Target,
    /// Address.
    Address,
    /// Value.
    Value,
    /// Bytes of a FILL or COPY.
    Length,
    /// The pool that a COPY names.
    CopyPool,
    /// A COPY's first byte within the pool.
    Source,
}

/// Where the writer notes the fields: a list, or `()` for nowhere.
pub trait Fields {
    /// Forgets all fields.
    fn clear(&mut self);
    /// Notes a field.
    fn push(&mut self, field: Field);
}

impl Fields for () {
    fn clear(&mut self) {}
    fn push(&mut self, _: Field) {}
}

impl Fields for Vec<Field> {
    fn clear(&mut self) {
        Vec::clear(self);
    }
    fn push(&mut self, field: Field) {
        Vec::push(self, field);
    }
}
