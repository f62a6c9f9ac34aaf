//! Numbers of four bytes, most significant byte first.

/// The number at a place.
pub fn word(bytes: &[u8], at: usize) -> u32 {
    u32::from_be_bytes([bytes[at], bytes[at + 1], bytes[at + 2], bytes[at + 3]])
}

/// The bytes as f32.
pub fn floats(bytes: &[u8]) -> Vec<f32> {
    (0..bytes.len() / 4).map(|i| f32::from_bits(word(bytes, 4 * i))).collect()
}
