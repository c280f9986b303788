//! A look at the used records of a table, which may be damaged.

use std::ops::Range;

use second::tapes::counts::room;

/// The bytes of a header and of a record.
pub const HEADER_LEN: usize = 64;
pub const RECORD_LEN: usize = 80;
/// Where a record has its token.
const TOKEN: Range<usize> = 1..15;

/// The used records, as far as there are so many.
pub fn used_records(table: &[u8]) -> impl Iterator<Item = &[u8]> {
    let used = number(table.get(4..8).unwrap_or_default()) as usize;
    let records = table.get(HEADER_LEN..).unwrap_or_default();
    // Behind the last record there are bits, which are none.
    let records = records.chunks_exact(RECORD_LEN).take(room(table.len()));
    records.take(used)
}

/// Where the first used record of this token begins.
pub fn row(table: &[u8], token: &[u8]) -> Option<usize> {
    let place = used_records(table).position(|record| record[TOKEN] == *token)?;
    Some(HEADER_LEN + RECORD_LEN * place)
}

/// The number of so many bytes, four at most.
pub fn number(bytes: &[u8]) -> u32 {
    bytes
        .iter()
        .fold(0, |number, &byte| number << 8 | u32::from(byte))
}
