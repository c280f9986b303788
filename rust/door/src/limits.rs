//! Sizes in bytes, and limits, as the paper has them.

/// The bytes of a table's header.
pub const HEADER_SIZE: usize = 64;
/// The bytes of a record.
pub const RECORD_SIZE: usize = 80;
/// The most records of a table; the fewest are one.
pub const MOST_RECORDS: usize = 800;
/// The most firms of a table; the fewest are one.
pub const MOST_FIRMS: usize = 8;
/// The highest threshold; the lowest is 1.
pub const HIGHEST_THRESHOLD: u32 = 1_000_000;
/// The bytes of a symbol, and of a place in a list of stocks: the symbol and its state, T or H.
pub const SYMBOL_SIZE: usize = 8;
pub const STOCK_SIZE: usize = SYMBOL_SIZE + 1;
/// The most places of a list of stocks; it may have none.
pub const MOST_STOCKS: usize = 2_000;
/// The shortest ring, which has room for the longest message.
pub const SHORTEST_RING: usize = 80;
/// The longest ring.
pub const LONGEST_RING: usize = 65_536;
/// The longest entry, its byte of kind and its stamp included.
pub const LONGEST_ENTRY: usize = 56;
/// The longest message.
pub const LONGEST_MESSAGE: usize = 80;

/// The bytes of a table with so many records: the header, the records, and a bit for each of them.
pub const fn table_size(records: usize) -> usize {
    old_table_size(records) + records.div_ceil(8)
}

/// The bytes of such a table in its old form, which had no bits.
pub const fn old_table_size(records: usize) -> usize {
    HEADER_SIZE + RECORD_SIZE * records
}

/// The bytes of a list with so many stocks.
pub const fn stocks_size(stocks: usize) -> usize {
    STOCK_SIZE * stocks
}
