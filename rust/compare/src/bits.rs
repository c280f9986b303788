//! What done entries do to the bits behind the records and to the sum of open shares, by their kinds.

use std::collections::BTreeMap;
use std::fmt::{self, Display, Formatter};

use second::tapes::counts::bits_at;

use crate::counts;
use crate::records::number;

/// Where the sum stands.
const SUM: std::ops::Range<usize> = 60..64;

/// The bits and the sum of a table.
#[derive(Clone, Debug, PartialEq, Eq)]
pub struct Counts {
    bits: Vec<u8>,
    sum: u32,
}

impl Counts {
    /// Those of a table that may be damaged: what isn't there is none.
    pub fn of(table: &[u8]) -> Counts {
        let bits = bits_at(table).map_or(&[][..], |at| &table[at..]);
        Counts {
            bits: bits.to_vec(),
            sum: number(table.get(SUM).unwrap_or_default()),
        }
    }
}

/// How often entries of each kind set a bit, cleared one, or moved no bit and lowered the sum; and how
/// often that was in another byte than the first.
#[derive(Clone, Debug, Default, PartialEq, Eq)]
pub struct Bits(pub BTreeMap<String, u64>);

impl Bits {
    /// Counts a done entry of this kind, which had these counts before it and those after.
    pub fn count(&mut self, kind: u8, before: &Counts, after: &Counts) {
        let kind = char::from(kind);
        let bytes = before.bits.iter().zip(&after.bits).enumerate();
        for (place, (old, new)) in bytes.filter(|(_, (old, new))| old != new) {
            for (what, moved) in [("set", new & !old), ("cleared", old & !new)] {
                let often = u64::from(moved.count_ones());
                self.add(format!("{what} by {kind}"), often);
                self.add(
                    format!("{what} past the first byte"),
                    often * u64::from(place > 0),
                );
            }
        }
        let lowered = before.bits == after.bits && after.sum < before.sum;
        self.add(format!("only lowered by {kind}"), u64::from(lowered));
    }

    fn add(&mut self, what: String, often: u64) {
        if often > 0 {
            *self.0.entry(what).or_default() += often;
        }
    }
}

impl Display for Bits {
    fn fmt(&self, f: &mut Formatter) -> fmt::Result {
        let counted = self.0.iter().map(|(what, &count)| (what, count));
        f.write_str(&counts::listed(counted))
    }
}
