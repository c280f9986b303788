//! What a status finds in damaged tables: what a walk over the records wouldn't find there, and what
//! makes no table of them.

use std::fmt::{self, Display, Formatter};

use second::tapes::counts::{old_len, room, table_len, walked};

use crate::counts;
use crate::records::number;

/// Where a table has its form and its sum, today's form, and the most records.
const FORM: usize = 2;
const SUM: std::ops::Range<usize> = 60..64;
const TODAYS: u8 = 1;
const MOST_RECORDS: usize = 800;

/// What is counted: a status may find several of these.
const COUNTED: [&str; 6] = [
    "more ones than live orders",
    "fewer ones",
    "spare bits",
    "another sum",
    "another form",
    "another length",
];

/// What a status finds: what is counted of it.
#[derive(Clone, Copy, Debug, PartialEq, Eq)]
pub struct Found([bool; COUNTED.len()]);

impl Found {
    /// What it finds in a table, which may be any bytes.
    pub fn in_table(table: &[u8]) -> Found {
        let records = room(table.len());
        let length = (1..=MOST_RECORDS).contains(&records) && table_len(records) == table.len();
        if !length || table[FORM] != TODAYS {
            return Found([false, false, false, false, length, !length]);
        }
        let bits = &table[old_len(records)..];
        let ones: u32 = bits.iter().map(|byte| byte.count_ones()).sum();
        let last = bits[bits.len() - 1];
        let open: Vec<u32> = walked(table).into_iter().flatten().collect();
        let sum = open.iter().copied().fold(0, u32::wrapping_add);
        Found([
            ones as usize > open.len(),
            (ones as usize) < open.len(),
            !records.is_multiple_of(8) && last >> (records % 8) != 0,
            number(&table[SUM]) != sum,
            false,
            false,
        ])
    }
}

/// How many statuses found each.
#[derive(Clone, Copy, Debug, Default, PartialEq, Eq)]
pub struct Statuses(pub [u64; COUNTED.len()]);

impl Statuses {
    pub fn count(&mut self, found: &Found) {
        counts::add(&mut self.0, &found.0);
    }
}

impl Display for Statuses {
    fn fmt(&self, f: &mut Formatter) -> fmt::Result {
        f.write_str(&counts::listed(COUNTED.into_iter().zip(self.0)))
    }
}
