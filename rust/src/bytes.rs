//! Little-endian numbers in bytes. The readers are total.

pub fn put(bytes: &mut Vec<u8>, number: u32) {
    bytes.extend_from_slice(&number.to_le_bytes());
}

pub fn put_float(bytes: &mut Vec<u8>, float: f32) {
    put(bytes, float.to_bits());
}

/// The number at a position, where the bytes have one there.
pub fn number_at(bytes: &[u8], at: usize) -> Option<u32> {
    let four = bytes.get(at..at.checked_add(4)?)?;
    Some(u32::from_le_bytes([four[0], four[1], four[2], four[3]]))
}

pub fn float_at(bytes: &[u8], at: usize) -> Option<f32> {
    number_at(bytes, at).map(f32::from_bits)
}

/// The counts of 8 bytes each. Up to seven bytes after the last are no count.
pub fn counts(bytes: &[u8]) -> impl Iterator<Item = u64> + '_ {
    bytes.chunks_exact(8).map(|b| u64::from_le_bytes([b[0], b[1], b[2], b[3], b[4], b[5], b[6], b[7]]))
}

/// All numbers. Up to three bytes after the last are no number.
pub fn numbers(bytes: &[u8]) -> Vec<u32> {
    bytes.chunks_exact(4).map(|four| u32::from_le_bytes([four[0], four[1], four[2], four[3]])).collect()
}
