//! The bits behind the records: one for each record, set while that is used and its order is live.

/// How many records a byte has bits for.
const A_BYTE: usize = 8;

/// How many bytes the bits of so many records take.
pub fn bytes_for(records: usize) -> usize {
    records.div_ceil(A_BYTE)
}

/// The bits of a table of so many records, of which the used ones are live or not as is told here. The
/// first record's is the lowest of the first byte. Those of unused records, and the spare ones of the
/// last byte, are zero.
pub fn written(records: usize, live: impl Iterator<Item = bool>) -> Vec<u8> {
    let mut bytes = vec![0; bytes_for(records)];
    for (place, live) in live.enumerate() {
        bytes[place / A_BYTE] |= u8::from(live) << (place % A_BYTE);
    }
    bytes
}

/// How many bits are set, whatever they stand for.
pub fn ones(bytes: &[u8]) -> usize {
    bytes.iter().map(|byte| byte.count_ones() as usize).sum()
}
