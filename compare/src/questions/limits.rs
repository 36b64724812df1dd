//! Sides about the limits, for what is asked whatever the seed.

pub const LIMITS: [(u64, u64); 8] = [(1, 1), (1, 4096), (4096, 1), (4096, 256), (256, 4096), (255, 256), (256, 255), (257, 3)];

/// Sides of settings that no grid has; for most, some number would take their product or their low bits for a smaller grid's.
pub const WIDE: [(u64, u64); 14] = [
    (0, 0),
    (u64::MAX, 1),
    (1, u64::MAX),
    (u64::MAX, u64::MAX),
    (1 << 32, 1 << 32),
    (1 << 63, 2),
    (2, 1 << 63),
    ((1 << 61) + 1, 1),
    (1 << 61, 1 << 3),
    ((1 << 32) + 2, 3),
    (2, (1 << 32) + 3),
    ((1 << 16) + 2, 3),
    (2, (1 << 16) + 3),
    (4096, 257),
];

/// The cells of the smaller grid.
pub const WRAPPED_TO: [usize; 3] = [0, 1, 6];

/// Bytes behind a whole file.
pub const LONGER: [usize; 4] = [1, 8, 72, 4096];
