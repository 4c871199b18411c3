//! A stream as bytes, in the sheet's layouts.

use super::fields::{Field, Fields, Role};
use super::{Card, Operation, Pool, Stream};

/// Bytes of an operation by width of its address (3 or 4 bytes) and opcode.
pub const OPERATION_SIZES: [[usize; 3]; 2] = [[6, 10, 15], [7, 11, 16]];

/// Bytes of a record of version 1.
pub const RECORD_SIZE: usize = 5;

impl Stream {
    /// Bytes of the file.
    pub fn size(&self) -> usize {
        let tables = match self.version {
            1 => 20,
            4 => 48 + 32 * self.cards.len(),
            _ => 40,
        };
        let pools = self.pools.iter().map(|pool| 16 + pool.payload.len());
        let frames = self.frames.iter().map(|frame| self.frame_size(frame));
        let opening = self.operations_size(&self.opening);
        tables + pools.sum::<usize>() + opening + frames.sum::<usize>()
    }

    /// Bytes of a frame in this file.
    pub fn frame_size(&self, frame: &[Operation]) -> usize {
        2 + self.operations_size(frame)
    }

    /// Appends frames while they fit into a file of `bytes` bytes.
    pub fn append_frames(&mut self, bytes: usize, mut draw: impl FnMut() -> Vec<Operation>) {
        let mut size = self.size();
        loop {
            let frame = draw();
            size += self.frame_size(&frame);
            if size > bytes {
                return;
            }
            self.frames.push(frame);
        }
    }

    fn operations_size(&self, operations: &[Operation]) -> usize {
        if self.version == 1 {
            return RECORD_SIZE * operations.len();
        }
        let sizes = &OPERATION_SIZES[usize::from(self.version > 2)];
        operations
            .iter()
            .map(|operation| match operation {
                Operation::Write { .. } => sizes[0],
                Operation::Fill { .. } => sizes[1],
                Operation::Copy { .. } => sizes[2],
            })
            .sum()
    }

    /// The file.
    pub fn to_bytes(&self) -> Vec<u8> {
        let mut bytes = Vec::with_capacity(self.size());
        self.write(&mut bytes, &mut ());
        bytes
    }

    /// Writes the file into `bytes`, whose contents go and whose memory is used again, and its fields into `fields`.
    ///
    /// # Panics
    /// If version 1 has an operation other than WRITE, or a count does not fit its field.
    pub fn write(&self, bytes: &mut Vec<u8>, fields: &mut impl Fields) {
        bytes.clear();
        fields.clear();
        let mut writer = Writer {
            bytes,
            fields,
            version: self.version,
        };
        if self.version == 1 {
            writer.version_1(self);
        } else {
            writer.pooled(self);
        }
    }
}

struct Writer<'a, F> {
    bytes: &'a mut Vec<u8>,
    fields: &'a mut F,
    version: u8,
}

impl<F: Fields> Writer<'_, F> {
    fn put(&mut self, role: Role, width: usize, value: u32) {
        self.fields.push(Field {
            at: self.bytes.len() as u32,
            width: width as u8,
            role,
        });
        // Four bytes, of which those behind the field go again: a fixed length is quicker to copy.
        let end = self.bytes.len() + width;
        let value = value << (8 * (4 - width));
        self.bytes.extend_from_slice(&value.to_be_bytes());
        self.bytes.truncate(end);
    }

    fn put_u8(&mut self, role: Role, value: u8) {
        self.put(role, 1, u32::from(value));
    }

    fn put_count(&mut self, role: Role, width: usize, count: usize) {
        let value = u32::try_from(count).expect("a count fits four bytes");
        assert!(width == 4 || value >> (8 * width) == 0, "{role:?} {count}");
        self.put(role, width, value);
    }

    /// Puts the place that writing has reached into the header.
    fn patch(&mut self, at: usize) {
        let place = self.bytes.len() as u32;
        self.bytes[at..at + 4].copy_from_slice(&place.to_be_bytes());
    }

    fn version_1(&mut self, stream: &Stream) {
        self.start(stream);
        self.put_count(Role::FrameCount, 4, stream.frames.len());
        self.put_count(Role::InitialCount, 4, stream.opening.len());
        self.put(Role::TotalSize, 4, 0);
        self.operations(&stream.opening);
        self.frames(&stream.frames);
        self.patch(16);
    }

    fn pooled(&mut self, stream: &Stream) {
        let version_4 = stream.version == 4;
        let cards: &[Card] = if version_4 { &stream.cards } else { &[] };
        let header_size = if version_4 { 48 } else { 40 };
        self.start(stream);
        self.put_count(Role::FrameCount, 4, stream.frames.len());
        self.put_count(Role::PoolCount, 4, stream.pools.len());
        self.put_count(Role::InitialCount, 4, stream.opening.len());
        self.put_count(Role::DirectoryOffset, 4, header_size + 32 * cards.len());
        self.put(Role::InitialStart, 4, 0);
        self.put(Role::FrameStart, 4, 0);
        self.put(Role::TotalSize, 4, 0);
        self.put_count(Role::HeaderSize, 2, header_size);
        if version_4 {
            self.put_count(Role::CardCount, 1, cards.len());
            self.put_u8(Role::Reserved, 0);
            self.put(Role::Period, 4, stream.period);
            self.put(Role::Reserved, 4, 0);
        } else {
            self.put(Role::Reserved, 2, 0);
        }
        for card in cards {
            self.card(card);
        }
        self.pools(&stream.pools);
        self.patch(24);
        self.operations(&stream.opening);
        self.patch(28);
        self.frames(&stream.frames);
        self.patch(32);
    }

    fn start(&mut self, stream: &Stream) {
        self.put(Role::Magic, 4, u32::from_be_bytes(*b"SGUB"));
        self.put_u8(Role::Version, stream.version);
        self.put_u8(Role::Voices, 16);
        self.put_u8(Role::Repeat, u8::from(stream.repeat));
        self.put_u8(Role::Reserved, 0);
    }

    fn card(&mut self, card: &Card) {
        self.put_u8(Role::Slot, card.slot);
        self.put_u8(Role::NameLength, card.name_length);
        self.put(Role::Reserved, 2, 0);
        self.put(Role::NameOffset, 4, card.name_offset);
        self.put(Role::BulkStart, 4, card.bulk_start);
        self.put(Role::BulkLength, 4, card.bulk_length);
        for byte in card.name {
            self.put_u8(Role::Name, byte);
        }
    }

    fn pools(&mut self, pools: &[Pool]) {
        let mut offset = self.bytes.len() + 16 * pools.len();
        for (id, pool) in pools.iter().enumerate() {
            self.put_count(Role::PoolId, 2, id);
            self.put_u8(Role::PoolKind, pool.kind);
            self.put_u8(Role::Codec, 0);
            self.put_count(Role::RawSize, 4, pool.payload.len());
            self.put_count(Role::StoredSize, 4, pool.payload.len());
            self.put_count(Role::PoolOffset, 4, offset);
            offset += pool.payload.len();
        }
        for pool in pools {
            self.bytes.extend_from_slice(&pool.payload);
        }
    }

    fn frames(&mut self, frames: &[Vec<Operation>]) {
        for frame in frames {
            self.put_count(Role::OperationCount, 2, frame.len());
            self.operations(frame);
        }
    }

    fn operations(&mut self, operations: &[Operation]) {
        for operation in operations {
            self.operation(*operation);
        }
    }

    fn operation(&mut self, operation: Operation) {
        match operation {
            Operation::Write {
                target,
                address,
                value,
            } => {
                self.place(0, target, address);
                self.put_u8(Role::Value, value);
            }
            Operation::Fill {
                target,
                address,
                length,
                value,
            } => {
                self.place(1, target, address);
                self.put(Role::Length, 4, length);
                self.put_u8(Role::Value, value);
            }
            Operation::Copy {
                target,
                address,
                pool,
                source,
                length,
            } => {
                self.place(2, target, address);
                self.put(Role::CopyPool, 2, u32::from(pool));
                self.put(Role::Source, 4, source);
                self.put(Role::Length, 4, length);
            }
        }
    }

    /// Opcode, target and address. A record of version 1 has no opcode.
    fn place(&mut self, opcode: u8, target: u8, address: u32) {
        if self.version == 1 {
            assert_eq!(opcode, 0, "version 1 has WRITEs only");
        } else {
            self.put_u8(Role::Opcode, opcode);
        }
        self.put_u8(Role::Target, target);
        let width = if self.version <= 2 { 3 } else { 4 };
        self.put(Role::Address, width, address);
    }
}
