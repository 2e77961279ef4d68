//! The numbers that choices stand for.

/// The ends of the range, and numbers that have another meaning elsewhere.
pub const SPECIAL: [u32; 8] = [1, 2, 8003, 8005, 3001, 1201, 0x7FFF_FFFE, 0x7FFF_FFFF];

const COUNTER: [u32; 7] = [0, 1, 5, 0x7FFF_FFFE, 0x7FFF_FFFF, 1 << 31, u32::MAX];

/// For each attribute values in range, the ends of the range, and what lies
/// just outside.
pub const VALUES: [[u32; 7]; 8] = [
    [2, 8, 32, 0, 3, 16, 33],
    COUNTER,
    COUNTER,
    COUNTER,
    COUNTER,
    [0x10003, 0x10004, 0x10005, 0x10002, 0x10006, 3, 0],
    [0x100, 0x200, 0x1_0100, 0x8000_0200, 0x101, 0x300, 0],
    [0x2000, 0x1000, 0x1_1000, 0x8000_2000, 0x1001, 0x3000, 0],
];
