//! The archive `scales`: proved functions that a step calls, by themselves.

#![allow(unsafe_code, reason = "the functions are C's")]

use pilaqsevi::{Marks, SYMBOL_SIZE};

use crate::next::ALL_SYMBOLS;

unsafe extern "C" {
    fn pq_sound(table: *const u8, table_len: usize) -> u8;
    fn pq_find(table: *const u8, table_len: usize, token: *const [u8; 14]) -> usize;
    fn pq_find_wanted(
        table: *const u8,
        table_len: usize,
        firm: *const [u8; 4],
        symbol: *const [u8; SYMBOL_SIZE],
        by_stock: u8,
    ) -> usize;
    fn pq_put(
        ring: *mut u8,
        ring_len: usize,
        at: usize,
        held: usize,
        message: *const u8,
        message_len: usize,
    ) -> u8;
    fn pq_stocks_good(stocks: *const u8, stocks_len: usize) -> u8;
    fn pq_standing(
        stocks: *const u8,
        stocks_len: usize,
        symbol: *const u8,
        symbol_len: usize,
    ) -> u8;
}

/// Whether the table is sound.
pub fn sound(table: &[u8]) -> bool {
    // SAFETY: the pointer comes with its slice's length, and the function keeps none.
    unsafe { pq_sound(table.as_ptr(), table.len()) == 1 }
}

/// The place of the token's first used record; the number of used records where none has it.
pub fn find(table: &[u8], token: &[u8; 14]) -> usize {
    // SAFETY: the pointer comes with its slice's length, the token has its fourteen bytes, and the
    // function keeps neither.
    unsafe { pq_find(table.as_ptr(), table.len(), token) }
}

/// The place of the first order of a firm and a symbol that a w cancels; the number of used records
/// where there is none.
pub fn find_wanted(table: &[u8], firm: &[u8; 4], symbol: &[u8; SYMBOL_SIZE]) -> usize {
    let by_stock = u8::from(*symbol != ALL_SYMBOLS);
    // SAFETY: the pointer comes with its slice's length, firm and symbol have their bytes, and the
    // function keeps none.
    unsafe { pq_find_wanted(table.as_ptr(), table.len(), firm, symbol, by_stock) }
}

/// Whether the list of stocks is good.
pub fn stocks_good(stocks: &[u8]) -> bool {
    // SAFETY: the pointer comes with its slice's length, and the function keeps none.
    unsafe { pq_stocks_good(stocks.as_ptr(), stocks.len()) == 1 }
}

/// How a symbol stands in the list: 0 not at all, 1 trading, 2 halted.
pub fn standing(stocks: &[u8], symbol: &[u8; SYMBOL_SIZE]) -> u8 {
    // SAFETY: both pointers come with their slices' lengths, and the function keeps none.
    unsafe { pq_standing(stocks.as_ptr(), stocks.len(), symbol.as_ptr(), symbol.len()) }
}

/// The number that putting the message behind the held bytes is answered with.
pub fn put(ring: &mut [u8], marks: Marks, message: &[u8]) -> u8 {
    // SAFETY: both pointers come with their slices' lengths, the borrows are apart and last
    // through the call, and the function keeps no pointer.
    unsafe {
        pq_put(
            ring.as_mut_ptr(),
            ring.len(),
            marks.at,
            marks.held,
            message.as_ptr(),
            message.len(),
        )
    }
}
