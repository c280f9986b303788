//! What an entry means at the table that it is offered to, looked at before the step changes that.

use crate::alike::Alike;
use crate::bits::Counts;
use crate::blocks::Block;
use crate::cancels::Cancel;
use crate::purges::Purge;

/// All that is looked at.
#[derive(Clone, Debug, PartialEq, Eq)]
pub struct Meant {
    pub alike: Alike,
    pub cancel: Option<Cancel>,
    pub purge: Option<Purge>,
    pub block: Option<Block>,
    pub counts: Counts,
}

impl Meant {
    /// What this entry means here. Entry and table may be damaged.
    pub fn of(entry: &[u8], table: &[u8]) -> Meant {
        Meant {
            alike: Alike::of(entry, table),
            cancel: Cancel::of(entry, table),
            purge: Purge::of(entry, table),
            block: Block::of(entry, table),
            counts: Counts::of(table),
        }
    }
}
