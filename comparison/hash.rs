//! What a recorded key keeps beside its bounds, and key tables that are too long.

use crate::library::KEYS;

/// Lengths of the three key tables of which one or all are longer than there can be keys.
pub const TOO_LONG: [[usize; 3]; 6] = [
    [KEYS + 1, KEYS, KEYS],
    [KEYS, KEYS + 1, KEYS],
    [KEYS, KEYS, KEYS + 1],
    [0, KEYS + 1, 0],
    [0, 0, KEYS + 1],
    [2 * KEYS + 88; 3],
];

/// FNV-1a with 32 bits, as document 02 has it: from 2166136261, for each byte the exclusive or with it, then the
/// product with 16777619, of which 32 bits are kept.
pub fn hash(bytes: &[u8]) -> u32 {
    let step = |hash: u64, &byte: &u8| ((hash ^ u64::from(byte)) * 16_777_619) % (1 << 32);
    bytes.iter().fold(2_166_136_261, step) as u32
}
