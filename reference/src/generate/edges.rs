//! Literals at the places where rounding, ranges and bit patterns change.

use crate::{inst::LiteralInstance, records::literal};

/// Payload bits at the edges of a kind.
pub fn bits(kind: u8) -> &'static [u64] {
    match kind {
        0 => &[0, 1],
        1 => ABSTRACT_INTS,
        2 => ABSTRACT_FLOATS,
        3 => I32S,
        4 => U32S,
        5 => F32S,
        _ => F16S,
    }
}

/// The literals at the edges of a kind.
pub fn literals(kind: u8) -> Vec<LiteralInstance> {
    bits(kind).iter().map(|b| literal(kind, *b).expect("edge literal")).collect()
}

const fn int(n: i64) -> u64 {
    n as u64
}

const fn i32_bits(n: i32) -> u64 {
    n as u32 as u64
}

const ABSTRACT_INTS: &[u64] = &[
    int(0),
    int(1),
    int(-1),
    // f16: the last exact integers, ties, the largest finite, the threshold of infinity
    int(2047),
    int(2049),
    int(2051),
    int(-2049),
    int(4098),
    int(4102),
    int(65503),
    int(65504),
    int(65505),
    int(65519),
    int(65520),
    int(65535),
    int(-65504),
    int(-65505),
    int(-65519),
    int(-65520),
    // f32: the last exact integers and ties
    int(16777215),
    int(16777217),
    int(16777219),
    int(-16777217),
    int(33554434),
    int(33554438),
    int(1099511693312), // 2^40 + 2^16, a tie
    int(1099511693313),
    int(1099511824384), // 2^40 + 3 * 2^16, a tie
    // i32 and u32 ends
    int(2147483647),
    int(2147483648),
    int(-2147483648),
    int(-2147483649),
    int(4294967295),
    int(4294967296),
    // f64: the last exact integers and ties; i64 ends
    int(9007199254740993),
    int(9007199254740995),
    int(-9007199254740993),
    int(9223372036854774784),
    int(9223372036854775295),
    int(9223371761976868863),
    int(9223371761976868864),
    int(i64::MAX),
    int(i64::MIN),
    int(i64::MIN + 1),
];

const ABSTRACT_FLOATS: &[u64] = &[
    0x0000000000000000, // zeros
    0x8000000000000000,
    0x3FF0000000000000, // 1, -1, 0.5, -0.5, 1.5, -1.5
    0xBFF0000000000000,
    0x3FE0000000000000,
    0xBFE0000000000000,
    0x3FF8000000000000,
    0xBFF8000000000000,
    0x3FEFFFFFFFFFFFFF, // just below 1
    0x3FB999999999999A, // 0.1
    0x7FF0000000000000, // infinities
    0xFFF0000000000000,
    0x7FF8000000000000, // NaNs
    0x7FF0000000000001,
    0xFFF8000000000123,
    0x7FFFFFFFFFFFFFFF,
    0x7FF0000020000000,
    0x7FEFFFFFFFFFFFFF, // largest and smallest f64
    0xFFEFFFFFFFFFFFFF,
    0x0000000000000001,
    0x000FFFFFFFFFFFFF,
    0x0010000000000000,
    0x8000000000000001,
    0x47EFFFFFE0000000, // largest f32, and on to the threshold of infinity
    0x47EFFFFFE0000001,
    0x47EFFFFFE8000000,
    0x47EFFFFFEFFFFFFF,
    0x47EFFFFFF0000000,
    0x47F0000000000000,
    0xC7EFFFFFE0000000,
    0xC7EFFFFFE0000001,
    0xC7EFFFFFF0000000,
    0x3FF0000010000000, // f32 ties at 1
    0x3FF0000010000001,
    0x3FF0000030000000,
    0x3FF000002FFFFFFF,
    0x36A0000000000000, // smallest f32, half of it, and around
    0x3690000000000000,
    0x3690000000000001,
    0xB690000000000001,
    0x368FFFFFFFFFFFFF,
    0x36A8000000000000,
    0x3810000000000000, // smallest normal f32 and the ties below it
    0x380FFFFFC0000000,
    0x380FFFFFE0000000,
    0x380FFFFFDFFFFFFF,
    0x380FFFFFFFFFFFFF,
    0x40EFFC0000000000, // 65504, 65505, 65519, just below 65520, 65520
    0x40EFFC2000000000,
    0x40EFFDE000000000,
    0x40EFFDFFFFFFFFFF,
    0x40EFFE0000000000,
    0xC0EFFC0000000000,
    0xC0EFFC2000000000,
    0xC0EFFE0000000000,
    0x3FF0020000000000, // f16 ties at 1, and the double rounding through f32
    0x3FF0020000000001,
    0x3FF0020000001000,
    0x3FF0020010000000,
    0x3FF001FFFFFFFFFF,
    0x3FF0060000000000,
    0x3FF005FFF0000000,
    0x3E70000000000000, // smallest f16, half of it, and around
    0x3E60000000000000,
    0x3E60000000000001,
    0x3E60000100000000,
    0x3E5FFFFFFFFFFFFF,
    0x3E78000000000000,
    0x3E77FFFFFFFFFFFF,
    0x3F10000000000000, // smallest normal f16 and the tie below it
    0x3F0FF80000000000,
    0x3F0FFC0000000000,
    0x3F0FFBFFFFFFFFFF,
    0x41DFFFFFFFC00000, // i32 and u32 ends
    0x41DFFFFFFFE00000,
    0x41E0000000000000,
    0xC1E0000000000000,
    0xC1E0000000200000,
    0xC1DFFFFFFFE00000,
    0x41EFFFFFFFE00000,
    0x41EFFFFFFFF00000,
    0x41F0000000000000,
    0x41EFFFFFE0000000,
];

const I32S: &[u64] = &[
    i32_bits(0),
    i32_bits(1),
    i32_bits(-1),
    i32_bits(2049),
    i32_bits(2051),
    i32_bits(65504),
    i32_bits(65505),
    i32_bits(65519),
    i32_bits(65520),
    i32_bits(-65504),
    i32_bits(-65505),
    i32_bits(-65520),
    i32_bits(16777217),
    i32_bits(16777219),
    i32_bits(-16777217),
    i32_bits(2147483583),
    i32_bits(2147483584),
    i32_bits(i32::MAX),
    i32_bits(i32::MIN),
];

const U32S: &[u64] = &[
    0, 1, 2049, 2051, 65504, 65505, 65519, 65520, 16777217, 16777219, 2147483647, 2147483648, 4294967040, 4294967167,
    4294967168, 4294967295,
];

const F32S: &[u64] = &[
    0x00000000, // zeros
    0x80000000, 0x3F800000, // 1, -1, 0.5, 1.5, -1.5, around 1
    0xBF800000, 0x3F000000, 0x3FC00000, 0xBFC00000, 0x3F7FFFFF, 0xBF7FFFFF, 0x7F800000, // infinities
    0xFF800000, 0x7FC00000, // NaNs
    0x7F800001, 0xFFC12345, 0x7FFFFFFF, 0x7F802000, 0x7F7FFFFF, // largest and smallest
    0xFF7FFFFF, 0x00000001, 0x80000001, 0x007FFFFF, 0x00800000, 0x4EFFFFFF, // i32 and u32 ends
    0x4F000000, 0xCF000000, 0xCF000001, 0x4F7FFFFF, 0x4F800000,
    0x477FE000, // 65504, 65505, just below 65520, 65520
    0x477FE100, 0x477FEFFF, 0x477FF000, 0xC77FE000, 0xC77FE001, 0xC77FF000, 0x3F801000, // f16 ties at 1
    0x3F801001, 0x3F800FFF, 0x3F803000, 0x33800000, // smallest f16, half of it, and around
    0x33000000, 0x33000001, 0x33C00000, 0x38800000, // smallest normal f16 and the tie below it
    0x387FC000, 0x387FE000, 0x387FDFFF,
];

const F16S: &[u64] = &[
    0x0000, 0x8000, 0x3C00, 0xBC00, 0x3800, 0x3E00, 0xBE00, 0x3BFF, 0x7C00, 0xFC00, 0x7E00, 0x7C01, 0xFE55, 0x7FFF,
    0x7BFF, 0xFBFF, 0x0001, 0x8001, 0x03FF, 0x0400, 0x5FFF, 0x6401,
];
