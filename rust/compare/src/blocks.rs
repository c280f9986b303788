//! What d and n find at their firm's bit, and what the bits do to orders: by which place of a firm
//! listed twice, and whether a blank firm counts as the default.

use std::fmt::{self, Display, Formatter};
use std::ops::Range;

use crate::counts;
use crate::records::row;

/// Where d and n, an Enter and a record have their firms, and an entry its token.
const FIRM: Range<usize> = 9..13;
const ENTER_FIRM: Range<usize> = 44..48;
const RECORD_FIRM: Range<usize> = 44..48;
const TOKEN: Range<usize> = 9..23;
/// The firms of a table and their bits.
const FIRMS: Range<usize> = 28..60;
const BITS: usize = 3;
const OPEN: u8 = 1;

/// What is counted of d and n, and then of new orders and of Replaces on an open day.
const COUNTED: [&str; 9] = [
    "set",
    "set already",
    "cleared",
    "clear already",
    "of a firm listed twice",
    "new orders of blocked firms",
    "of those with a blank firm",
    "new orders past a later place's bit",
    "replaces of blocked firms",
];

/// A firm's first place, and the bits there and at any later place of the same firm.
struct Listed {
    twice: bool,
    blocked: bool,
    blocked_later: bool,
}

impl Listed {
    /// How the table lists this firm, if it does. The table may be damaged.
    fn of(firm: &[u8], table: &[u8]) -> Option<Listed> {
        let count = usize::from(*table.get(1)?).min(8);
        let firms = table.get(FIRMS)?.chunks_exact(4).take(count);
        let places = firms.enumerate().filter(|(_, listed)| *listed == firm);
        let bits: Vec<bool> = places
            .map(|(place, _)| table[BITS] >> place & 1 == 1)
            .collect();
        let (&blocked, later) = bits.split_first()?;
        Some(Listed {
            twice: !later.is_empty(),
            blocked,
            blocked_later: later.contains(&true),
        })
    }
}

/// A d or an n, or an entry that a block is asked for or isn't.
#[derive(Clone, Copy, Debug, PartialEq, Eq)]
pub struct Block([bool; COUNTED.len()]);

impl Block {
    /// The entry as one of these, where it is one. Entry and table may be damaged.
    pub fn of(entry: &[u8], table: &[u8]) -> Option<Block> {
        let kind = *entry.first()?;
        let open = table.first() == Some(&OPEN);
        let named = match kind {
            b'd' | b'n' => entry.get(FIRM)?,
            b'O' if open => entry.get(ENTER_FIRM)?,
            b'U' if open => &table[row(table, entry.get(TOKEN)?)?..][RECORD_FIRM],
            _ => return None,
        };
        let blank = kind == b'O' && named == b"    ";
        let default = table.get(FIRMS)?.first_chunk::<4>()?;
        let firm = if blank { default } else { named };
        let Listed {
            twice,
            blocked,
            blocked_later,
        } = Listed::of(firm, table)?;
        Some(Block([
            kind == b'd' && !blocked,
            kind == b'd' && blocked,
            kind == b'n' && blocked,
            kind == b'n' && !blocked,
            b"dn".contains(&kind) && twice,
            kind == b'O' && blocked,
            kind == b'O' && blocked && blank,
            kind == b'O' && !blocked && blocked_later,
            kind == b'U' && blocked,
        ]))
    }
}

/// How many of each there were.
#[derive(Clone, Copy, Debug, Default, PartialEq, Eq)]
pub struct Blocks(pub [u64; COUNTED.len()]);

impl Blocks {
    /// Counts one that was done.
    pub fn count(&mut self, block: &Block) {
        counts::add(&mut self.0, &block.0);
    }
}

impl Display for Blocks {
    fn fmt(&self, f: &mut Formatter) -> fmt::Result {
        f.write_str(&counts::listed(COUNTED.into_iter().zip(self.0)))
    }
}
