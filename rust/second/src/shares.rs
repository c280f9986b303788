//! Share numbers by kind, so that a total is never taken for an increment or for an exposure.

use std::iter::Sum;

use crate::field::{Field, plain_field};

/// Shares of a whole chain: liable, executed, self-matched, an intended size.
#[derive(Clone, Copy, Debug, Default, PartialEq, Eq, PartialOrd, Ord)]
pub struct Total(pub u32);

/// Shares that one event takes off what is open: a decrement, an execution, a self match.
#[derive(Clone, Copy, Debug, Default, PartialEq, Eq, PartialOrd, Ord)]
pub struct Removed(pub u32);

/// Shares still exposed, of an order or of several: liable less executed less self-matched.
#[derive(Clone, Copy, Debug, Default, PartialEq, Eq, PartialOrd, Ord)]
pub struct Open(pub u32);

plain_field!(Total, Removed, Open);

impl Total {
    /// Two totals of one chain together. A sound table keeps the sum at 999,999 or below.
    pub fn and(self, other: Total) -> Total {
        Total(self.0 + other.0)
    }

    /// Executed or self-matched after an event.
    pub fn grown_by(self, removed: Removed) -> Total {
        Total(self.0 + removed.0)
    }

    /// Liable after a cancel.
    pub fn reduced_by(self, removed: Removed) -> Total {
        Total(self.0 - removed.0)
    }

    /// What this liable total leaves exposed above the shares already spent.
    pub fn open_above(self, spent: Total) -> Open {
        Open(self.0 - spent.0)
    }

    /// What this intended size leaves exposed: nothing where it isn't above the shares executed.
    pub fn left_to_execute(self, executed: Total) -> Open {
        Open(self.0.saturating_sub(executed.0))
    }
}

impl Open {
    /// The removal that leaves nothing open.
    pub fn all(self) -> Removed {
        Removed(self.0)
    }

    /// The removal that leaves so much open, which must not be more.
    pub fn down_to(self, lower: Open) -> Removed {
        Removed(self.0 - lower.0)
    }
}

/// 800 orders have fewer than 800,000,000 shares, so no sum of theirs is cut.
impl Sum for Open {
    fn sum<I: Iterator<Item = Open>>(orders: I) -> Open {
        Open(orders.map(|open| open.0).sum())
    }
}
