//! X: Cancel Order limits the executions of the chain to the intended size, or waits for the cross.

use super::{Deed, USER_REQUESTED};
use crate::answer::Answer;
use crate::field::Stamp;
use crate::host::Host;
use crate::messages::{Cancel, CancelPending, CancelReject};
use crate::order::Order;
use crate::shares::Total;

pub fn cancel(host: &Host, stamp: Stamp, x: &Cancel) -> Result<Deed, Answer> {
    let (place, order) = host.live(x.token).ok_or(Answer::Ignored)?;
    // Shares lost to a self match aren't executions, so only executed counts against the size.
    let new_open = x.intended_size.left_to_execute(order.executed);
    // A cancel must never raise what is open, late or not.
    if new_open >= order.open() || order.flags.pending {
        return Err(Answer::Ignored);
    }
    if order.flags.late {
        return late_cancel(stamp, (place, order), x);
    }
    // Liable falls with what is open, to executed + self-matched + new open.
    let decrement = order.open().down_to(new_open);
    Ok(Deed::canceled(
        stamp,
        (place, order),
        decrement,
        USER_REQUESTED,
    ))
}

/// In the late period a cancel to size 0 waits, and any other is refused once a token.
fn late_cancel(
    stamp: Stamp,
    (place, mut order): (usize, Order),
    x: &Cancel,
) -> Result<Deed, Answer> {
    let token = x.token;
    if x.intended_size == Total(0) {
        order.flags.pending = true;
        return Ok(Deed::told(&CancelPending { stamp, token }, place, order));
    }
    if order.flags.cancel_reject_sent {
        return Err(Answer::Ignored);
    }
    order.flags.cancel_reject_sent = true;
    Ok(Deed::told(&CancelReject { stamp, token }, place, order))
}
