//! M: Modify Order changes the side among sales, or lowers the shares, and keeps the priority.

use super::Deed;
use crate::answer::Answer;
use crate::field::Stamp;
use crate::host::Host;
use crate::messages::{Modified, Modify};
use crate::order::Order;

pub fn modify(host: &Host, stamp: Stamp, m: &Modify) -> Result<Deed, Answer> {
    let (place, order) = host.live(m.token).ok_or(Answer::Ignored)?;
    if !host.day_open() || order.flags.late || !side_allowed(order.side, m.side.0) {
        return Err(Answer::Ignored);
    }
    if m.shares <= order.spent() || m.shares > order.liable {
        return Err(Answer::Ignored);
    }
    let changed = Order {
        side: m.side.0,
        liable: m.shares,
        ..order
    };
    if changed == order {
        return Err(Answer::Ignored);
    }
    let message = Modified {
        stamp,
        token: m.token,
        side: changed.side,
        shares: changed.open(),
    };
    Ok(Deed::told(&message, place, changed))
}

/// The same side, or a change among the sales.
fn side_allowed(old: u8, new: u8) -> bool {
    let sale = |side| b"STE".contains(&side);
    old == new || (sale(old) && sale(new))
}
