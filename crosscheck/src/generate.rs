//! Generators of cases, one module per subject.

pub mod batch;
pub mod chunks;
pub mod fuzz;
pub mod isolation;
pub mod listing;
pub mod order;
pub mod replay;

/// Dwords as little-endian bytes.
pub fn bytes(dwords: &[u32]) -> Vec<u8> {
    dwords
        .iter()
        .flat_map(|dword| dword.to_le_bytes())
        .collect()
}

/// Whole dwords, and the bytes left over.
pub fn dwords(bytes: &[u8]) -> (Vec<u32>, Vec<u8>) {
    let (dwords, tail) = bytes.as_chunks::<4>();
    let dwords = dwords.iter().map(|&dword| u32::from_le_bytes(dword));
    (dwords.collect(), tail.to_vec())
}
