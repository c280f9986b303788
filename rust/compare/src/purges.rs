//! What a w passes over on its way to the order that it means, or to the last record where there is
//! none left. Where nothing stands in its way, each wrong search finds the same.

use std::fmt::{self, Display, Formatter};
use std::ops::Range;

use crate::counts;
use crate::records::used_records;

/// Where a w has its firm and its symbol, and a record its token, its stock, its firm and its flags.
const FIRM: Range<usize> = 9..13;
const SYMBOL: Range<usize> = 13..21;
const RECORD_TOKEN: Range<usize> = 1..15;
const RECORD_STOCK: Range<usize> = 28..36;
const RECORD_FIRM: Range<usize> = 44..48;
const RECORD_FLAGS: usize = 64;
/// What a w says for all symbols, an open day, and the flag of a late order.
const ALL: &[u8] = b"        ";
const OPEN: u8 = 1;
const LATE: u8 = 1;

/// How many records share a byte of bits.
const A_BYTE: usize = 8;

/// What is counted: the w, and what each passed over, which may be several of these.
const COUNTED: [&str; 10] = [
    "in all",
    "in all symbols",
    "past late orders",
    "past dead ones",
    "past other symbols",
    "past other firms",
    "past an equal token",
    "past a whole byte of bits",
    "past an empty one",
    "on a day that isn't open",
];

/// A record as a w sees it.
struct Seen<'a> {
    token: &'a [u8],
    live: bool,
    late: bool,
    of_firm: bool,
    in_symbol: bool,
}

impl<'a> Seen<'a> {
    fn by(firm: &[u8], symbol: &[u8], record: &'a [u8]) -> Seen<'a> {
        let live = record[0] == b'L';
        Seen {
            token: &record[RECORD_TOKEN],
            live,
            late: live && record[RECORD_FLAGS] & LATE != 0,
            of_firm: record[RECORD_FIRM] == *firm,
            in_symbol: symbol == ALL || record[RECORD_STOCK] == *symbol,
        }
    }

    fn is_meant(&self) -> bool {
        self.of_firm && self.in_symbol
    }

    /// Whether it is taken where no other stands before it.
    fn is_taken(&self) -> bool {
        self.is_meant() && self.live && !self.late
    }
}

/// A w at a table: what is counted of it.
#[derive(Clone, Copy, Debug, PartialEq, Eq)]
pub struct Purge([bool; COUNTED.len()]);

impl Purge {
    /// The entry as a w, where it is one. Entry and table may be damaged.
    pub fn of(entry: &[u8], table: &[u8]) -> Option<Purge> {
        let [b'w', ..] = entry else {
            return None;
        };
        let (firm, symbol) = (entry.get(FIRM)?, entry.get(SYMBOL)?);
        let seen = |record| Seen::by(firm, symbol, record);
        let records: Vec<Seen> = used_records(table).map(seen).collect();
        let place = records.iter().position(Seen::is_taken);
        let (passed, rest) = records.split_at(place.unwrap_or(records.len()));
        let token = rest.first().map(|next| next.token);
        let past = |what: fn(&Seen) -> bool| passed.iter().any(what);
        Some(Purge([
            true,
            symbol == ALL,
            past(|seen| seen.is_meant() && seen.late),
            past(|seen| seen.is_meant() && !seen.live),
            past(|seen| seen.live && seen.of_firm && !seen.in_symbol),
            past(|seen| seen.live && !seen.of_firm && seen.in_symbol),
            passed.iter().any(|seen| Some(seen.token) == token),
            passed.len() >= A_BYTE,
            passed
                .chunks_exact(A_BYTE)
                .any(|byte| byte.iter().all(|seen| !seen.live)),
            table.first() != Some(&OPEN),
        ]))
    }
}

/// How many such w there were, and what they passed over.
#[derive(Clone, Copy, Debug, Default, PartialEq, Eq)]
pub struct Purges(pub [u64; COUNTED.len()]);

impl Purges {
    /// Counts one that was answered from a sound table.
    pub fn count(&mut self, purge: &Purge) {
        counts::add(&mut self.0, &purge.0);
    }
}

impl Display for Purges {
    fn fmt(&self, f: &mut Formatter) -> fmt::Result {
        f.write_str(&counts::listed(COUNTED.into_iter().zip(self.0)))
    }
}
