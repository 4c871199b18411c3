//! The values at and beside the limits of the sheet, by what a field says.

use crate::model::fields::Role;

/// Addresses at and beside the limits of every target.
pub const ADDRESSES: &[u32] = &[
    0,
    1,
    0x3f,
    0x40,
    0xff,
    0x100,
    0x6ff,
    0x700,
    0x7ff,
    0x800,
    0x8ff,
    0x900,
    0xf_ffff,
    0x10_0000,
    0x3f_ffff,
    0x40_0000,
    0xff_ffff,
    0x100_0000,
    0x1ff_ffff,
    0x200_0000,
    0x7fff_ffff,
    0x8000_0000,
    0xffff_ff00,
    0xffff_ffff,
];

/// Lengths and sizes: those that fill a range, one less and one more, and those that wrap a sum.
pub const LENGTHS: &[u32] = &[
    0,
    1,
    2,
    255,
    256,
    257,
    512,
    0x7ff,
    0x800,
    0x801,
    0x8ff,
    0x900,
    0x901,
    0xf_ffff,
    0x10_0000,
    0x10_0001,
    0x3f_ffff,
    0x40_0000,
    0x40_0001,
    0x1ff_ffff,
    0x200_0000,
    0x200_0001,
    0x7fff_ffff,
    0x8000_0000,
    0xffff_ff00,
    0xffff_fffe,
    0xffff_ffff,
];

/// Frame periods.
pub const PERIODS: &[u32] = &[
    0,
    1,
    47_999,
    48_000,
    48_001,
    800_000,
    47_999_999,
    48_000_000,
    48_000_001,
    u32::MAX,
];

/// Slots.
pub const SLOTS: &[u32] = &[0, 1, 6, 7, 8, 255];

/// Lengths of a card's name.
pub const NAME_LENGTHS: &[u32] = &[0, 1, 2, 15, 16, 17, 255];

/// Kinds of pools.
pub const KINDS: &[u32] = &[0, 1, 2, 3, 4, 255];

/// Targets.
pub const TARGETS: &[u32] = &[0, 1, 2, 3, 4, 9, 10, 11, 12, 255];

const FLAGS: &[u32] = &[0, 1, 2, 3, 0x80, 0xfe, 0xff];
const COUNTS: &[u32] = &[
    0,
    1,
    2,
    3,
    255,
    256,
    65_535,
    65_536,
    65_537,
    0x3333_3333,
    u32::MAX,
];
const PLACES: &[u32] = &[0, 19, 20, 21, 39, 40, 41, 47, 48, 49, 80, 304, 305];
const TOTALS: &[u32] = &[0, 20, 40, 48, 0xdf_ffff, 0xe0_0000, 0xe0_0001, u32::MAX];

/// The values worth trying in a field.
pub fn of(role: Role) -> &'static [u32] {
    match role {
        Role::Magic => &[0x5347_5500, 0x7367_7562, 0x4255_4753, 0x5347_5543],
        Role::Version => &[0, 1, 2, 3, 4, 5, 255],
        Role::Voices => &[0, 8, 15, 16, 17, 255],
        Role::Repeat | Role::Reserved | Role::Codec | Role::Name | Role::Value => FLAGS,
        Role::FrameCount | Role::InitialCount | Role::PoolCount | Role::OperationCount => COUNTS,
        Role::DirectoryOffset | Role::InitialStart | Role::FrameStart | Role::PoolOffset => PLACES,
        Role::TotalSize => TOTALS,
        Role::HeaderSize => &[0, 20, 39, 40, 41, 47, 48, 49, 0x2800, 0x3000],
        Role::CardCount => &[0, 1, 2, 7, 8, 9, 255],
        Role::Period => PERIODS,
        Role::Slot => SLOTS,
        Role::NameLength => NAME_LENGTHS,
        Role::NameOffset | Role::BulkStart | Role::Address => ADDRESSES,
        Role::PoolId | Role::CopyPool => &[0, 1, 2, 3, 255, 256, 65_535],
        Role::PoolKind => KINDS,
        Role::BulkLength | Role::RawSize | Role::StoredSize | Role::Length | Role::Source => {
            LENGTHS
        }
        Role::Opcode => &[0, 1, 2, 3, 255],
        Role::Target => TARGETS,
    }
}
