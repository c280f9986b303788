//! Where the intended sizes of Cancels stand among the shares of orders that have self-matched ones.
//! Of no others does it show whether self-matched shares are taken for executed ones.

use std::fmt::{self, Display, Formatter};
use std::ops::Range;

use crate::counts;
use crate::records::{number, row};

/// Where an entry has its token and a Cancel its size.
const TOKEN: Range<usize> = 9..23;
const SIZE: Range<usize> = 23..27;
/// The flags of a record.
const LATE: u8 = 1;
const PENDING: u8 = 2;

/// What is counted: the Cancels, and their sizes by where they stand, which may be at several of
/// these at once. Between executed and liable a size would leave another number open if self-matched
/// shares were executed ones.
const COUNTED: [&str; 7] = [
    "in all",
    "executed",
    "executed + 1",
    "executed + open - 1",
    "executed + open",
    "liable",
    "between executed and liable",
];

/// A Cancel of a live order that has self-matched shares and no cancel pending, since a pending one
/// is ignored whatever the size.
#[derive(Clone, Copy, Debug, PartialEq, Eq)]
pub struct Cancel {
    /// Whether the order is late.
    pub late: bool,
    size: u32,
    executed: u32,
    self_matched: u32,
    liable: u32,
}

impl Cancel {
    /// The entry as such a Cancel, where it is one. Entry and table may be damaged.
    pub fn of(entry: &[u8], table: &[u8]) -> Option<Cancel> {
        let [b'X', ..] = entry else {
            return None;
        };
        let (token, size) = (entry.get(TOKEN)?, entry.get(SIZE)?);
        let record = &table[row(table, token)?..];
        let shares = |at: usize| number(&record[at..at + 4]);
        let cancel = Cancel {
            late: record[64] & LATE != 0,
            size: number(size),
            executed: shares(20),
            self_matched: shares(24),
            liable: shares(16),
        };
        let live = record[0] == b'L' && record[64] & PENDING == 0;
        (live && cancel.self_matched > 0).then_some(cancel)
    }

    /// What is counted of it. The table must be sound.
    fn counted(&self) -> [bool; COUNTED.len()] {
        let &Cancel {
            size,
            executed,
            liable,
            ..
        } = self;
        let all = liable - self.self_matched;
        [
            true,
            size == executed,
            size == executed + 1,
            size == all - 1,
            size == all,
            size == liable,
            executed < size && size < liable,
        ]
    }
}

/// How many such Cancels there were, and where their sizes stood.
#[derive(Clone, Copy, Debug, Default, PartialEq, Eq)]
pub struct Sizes(pub [u64; COUNTED.len()]);

impl Sizes {
    /// Counts one that was answered from a sound table.
    pub fn count(&mut self, cancel: &Cancel) {
        counts::add(&mut self.0, &cancel.counted());
    }
}

impl Display for Sizes {
    fn fmt(&self, f: &mut Formatter) -> fmt::Result {
        f.write_str(&counts::listed(COUNTED.into_iter().zip(self.0)))
    }
}
