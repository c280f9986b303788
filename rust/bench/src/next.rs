//! The next order of a w looked for in a sound table as a Rust programmer would by hand: record by
//! record, or by the bits of live orders alone.
//!
//! Neither is inlined, since the proved one is a call into an archive.

use crate::plain::{Firm, LATE, Record, Symbol, live, used};
#[cfg(any(weighed, test))]
use crate::plain::{Parts, split};

/// What a w says instead of a symbol when it means all of them.
pub const ALL_SYMBOLS: Symbol = *b"        ";

/// Every used record is looked at.
#[inline(never)]
pub fn walking(table: &[u8], firm: &Firm, symbol: &Symbol) -> Option<usize> {
    let all = *symbol == ALL_SYMBOLS;
    let mut used = used(table).iter();
    used.position(|record| live(record) && wanted(record, firm, symbol, all))
}

/// Eight bytes of bits at a time, and of these the ones alone.
#[cfg(any(weighed, test))]
#[inline(never)]
pub fn by_the_bits(table: &[u8], firm: &Firm, symbol: &Symbol) -> Option<usize> {
    let Parts { records, bits, .. } = split(table)?;
    let all = *symbol == ALL_SYMBOLS;
    for (at, eight) in bits.chunks(8).enumerate() {
        let mut word = [0; 8];
        word[..eight.len()].copy_from_slice(eight);
        let mut left = u64::from_le_bytes(word);
        while left != 0 {
            let place = 64 * at + left.trailing_zeros() as usize;
            if wanted(&records[place], firm, symbol, all) {
                return Some(place);
            }
            left &= left - 1;
        }
    }
    None
}

/// Whether a live order is one that a w cancels.
fn wanted(record: &Record, firm: &Firm, symbol: &Symbol, all: bool) -> bool {
    record[64] & LATE == 0 && record[44..48] == *firm && (all || record[28..36] == *symbol)
}

#[cfg(test)]
mod tests {
    use second::tapes::{Chance, sound_table};

    use super::{ALL_SYMBOLS, by_the_bits, walking};

    /// Each record's firm and symbol in tables of one to three words of bits.
    #[test]
    fn both_find_the_first_that_is_live_and_not_late() {
        let mut chance = Chance::new(4);
        let (mut found, mut missed) = (0, 0);
        for _ in 0..300 {
            let records = 1 + chance.place(140);
            let table = sound_table(&mut chance, records);
            let used = usize::from(table[7]);
            let record = |place: usize| &table[64 + 80 * place..][..80];
            for place in 0..records.min(12) {
                let firm = record(place)[44..48].try_into().unwrap();
                let mut symbol = record(place)[28..36].try_into().unwrap();
                if chance.one_in(2) {
                    symbol = ALL_SYMBOLS;
                }
                let first = (0..used).map(record).position(|record| {
                    (record[0], record[64] & 1) == (b'L', 0)
                        && record[44..48] == firm
                        && (symbol == ALL_SYMBOLS || record[28..36] == symbol)
                });
                assert_eq!(walking(&table, &firm, &symbol), first);
                assert_eq!(by_the_bits(&table, &firm, &symbol), first);
                *(if first.is_some() {
                    &mut found
                } else {
                    &mut missed
                }) += 1;
            }
        }
        assert!(found > 500 && missed > 500, "{found} {missed}");
    }
}
