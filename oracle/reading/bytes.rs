//! Big-endian fields.

/// The unsigned number in the `width` bytes from `at` on.
pub fn field(bytes: &[u8], at: usize, width: usize) -> u64 {
    bytes[at..at + width].iter().fold(0, |number, byte| number << 8 | u64::from(*byte))
}

pub fn field32(bytes: &[u8], at: usize) -> u32 {
    field(bytes, at, 4) as u32
}

/// Writes the low `width` bytes of `number`.
pub fn put(bytes: &mut Vec<u8>, number: u64, width: usize) {
    bytes.extend_from_slice(&number.to_be_bytes()[8 - width..]);
}
