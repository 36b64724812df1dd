//! The patterns that made-up inputs are strewn with, here and in compare.

/// NaNs with payloads, infinities, zeros, subnormals, huge and tiny numbers, and some plain ones.
pub const SPECIAL: [u64; 16] = [
    0x7ff8_0000_0000_0000,
    0xfff8_0000_dead_beef,
    0x7ff0_0000_0000_0001,
    0x7ff0_0000_0000_0000,
    0xfff0_0000_0000_0000,
    0x0000_0000_0000_0000,
    0x8000_0000_0000_0000,
    0x0000_0000_0000_0001,
    0x800f_ffff_ffff_ffff,
    0x7fef_ffff_ffff_ffff,
    0x3d71_9799_812d_ea11,
    0x3ff0_0000_0000_0000,
    0xbff0_0000_0000_0000,
    0x3fb9_9999_9999_999a,
    0x4008_0000_0000_0000,
    0xbfe5_5555_5555_5555,
];
