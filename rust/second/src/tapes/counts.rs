//! The bits behind the records and the sum of open shares, as a walk over the records finds them, and
//! the form of tables before there were any.

use super::look::number;

/// A header's bytes, a record's, and how many records share a byte of bits.
const HEADER_LEN: usize = 64;
const RECORD_LEN: usize = 80;
const A_BYTE: usize = 8;
/// Where the form and the sum stand.
const FORM: usize = 2;
const SUM: std::ops::Range<usize> = 60..64;

/// The length of a table of so many records.
pub const fn table_len(records: usize) -> usize {
    old_len(records) + records.div_ceil(A_BYTE)
}

/// The length of one in the old form.
pub const fn old_len(records: usize) -> usize {
    HEADER_LEN + RECORD_LEN * records
}

/// How many records fit into so many bytes, each with its bit.
pub fn room(table_len: usize) -> usize {
    // Eight records and their byte of bits, and then the next byte of bits before its records.
    let group = A_BYTE * RECORD_LEN + 1;
    let body = table_len.saturating_sub(HEADER_LEN);
    let started = (body % group).saturating_sub(1) / RECORD_LEN;
    A_BYTE * (body / group) + started
}

/// Whether each used record of any bytes is in state L, and what it has open then, cut to four bytes
/// where its share numbers are wild.
pub fn walked(table: &[u8]) -> Vec<Option<u32>> {
    let used = number(table, 4, 4) as usize;
    let rows = table.get(HEADER_LEN..).unwrap_or(&[]);
    let rows = rows.chunks_exact(RECORD_LEN).take(room(table.len()));
    let open = |row: &[u8]| {
        let shares = |at| number(row, at, 4) as u32;
        let open = shares(16).wrapping_sub(shares(20)).wrapping_sub(shares(24));
        (row[0] == b'L').then_some(open)
    };
    rows.take(used).map(open).collect()
}

/// Writes the bits and the sum that a walk finds.
pub fn recount(table: &mut [u8]) {
    let Some(bits_at) = bits_at(table) else {
        return;
    };
    let walked = walked(table);
    let sum = walked.iter().flatten().copied().fold(0, u32::wrapping_add);
    table[SUM].copy_from_slice(&sum.to_be_bytes());
    table[bits_at..].fill(0);
    for (place, _) in walked.iter().enumerate().filter(|(_, open)| open.is_some()) {
        table[bits_at + place / A_BYTE] |= 1 << (place % A_BYTE);
    }
}

/// Where the bits begin, where there is a header at all.
pub fn bits_at(table: &[u8]) -> Option<usize> {
    (table.len() >= HEADER_LEN).then(|| old_len(room(table.len())))
}

/// The same table in the old form: without bits, and with zeros for the form and the sum.
pub fn old_form(table: &[u8]) -> Vec<u8> {
    let Some(bits_at) = bits_at(table) else {
        return table.to_vec();
    };
    let mut old = table[..bits_at].to_vec();
    old[FORM] = 0;
    old[SUM].fill(0);
    old
}
