//! What there was to convert, and what stood in its way: of most tables each converter makes the same.

use std::fmt::{self, Display, Formatter};

use second::tapes::counts::table_len;

use crate::command::Conversion;
use crate::counts;
use crate::records::{HEADER_LEN, RECORD_LEN, number};

/// The answers of a converter, and the form that isn't converted any more.
const DONE: u8 = 0;
const NOT_SOUND: u8 = 10;
const TODAYS: u8 = 1;

/// What is counted of done ones, and then of those whose table isn't sound.
const COUNTED: [&str; 7] = [
    "with live orders",
    "with dead ones",
    "with unused records that hold something",
    "of more than eight records",
    "from today's form",
    "not sound",
    "of those into another length",
];

/// How many of each there were.
#[derive(Clone, Copy, Debug, Default, PartialEq, Eq)]
pub struct Conversions(pub [u64; COUNTED.len()]);

impl Conversions {
    /// Counts one that is answered so.
    pub fn count(&mut self, conversion: &Conversion, answer: u8) {
        let Conversion { old, into } = conversion;
        let records = old.get(HEADER_LEN..).unwrap_or_default();
        let used = number(old.get(4..8).unwrap_or_default()) as usize;
        let rows = records.chunks_exact(RECORD_LEN).take(used);
        let has = |state: u8| rows.clone().any(|row| row[0] == state);
        let count = records.len() / RECORD_LEN;
        let unused = records
            .get(RECORD_LEN.saturating_mul(used)..)
            .unwrap_or_default();
        let (done, unsound) = (answer == DONE, answer == NOT_SOUND);
        counts::add(
            &mut self.0,
            &[
                done && has(b'L'),
                done && has(b'D'),
                done && unused.iter().any(|&byte| byte != 0),
                done && count > 8,
                old.get(2) == Some(&TODAYS),
                unsound,
                unsound && into.len() != table_len(count),
            ],
        );
    }
}

impl Display for Conversions {
    fn fmt(&self, f: &mut Formatter) -> fmt::Result {
        f.write_str(&counts::listed(COUNTED.into_iter().zip(self.0)))
    }
}
