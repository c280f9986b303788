//! U: Replace Order is ignored, rejected, ends the order for bad details, or replaces it.

use super::details::{
    NO_WEIGHT, accepted_time_in_force, bad_display, bad_minimum, bad_price, bad_shares,
};
use super::{Deed, HALTED, Sent, USER_REQUESTED};
use crate::answer::Answer;
use crate::field::Stamp;
use crate::host::Host;
use crate::messages::{Replace, Replaced};
use crate::order::{Flags, LIVE, Order, Record};
use crate::stocks::Stocks;

/// The market is closed.
const CLOSED: u8 = b'C';
/// Not allowed so late before the cross.
const TOO_LATE: u8 = b'R';

pub fn replace(host: &Host, stocks: &Stocks, stamp: Stamp, u: &Replace) -> Result<Deed, Answer> {
    let (place, old) = host.live(u.existing).ok_or(Answer::Ignored)?;
    if host.used(u.replacement) {
        return Err(Answer::Ignored);
    }
    if !host.day_open() {
        return Ok(Deed::rejected(stamp, u.replacement, CLOSED));
    }
    if old.flags.late {
        return Ok(Deed::rejected(stamp, u.replacement, TOO_LATE));
    }
    // A stock that a table made by hand has and the list hasn't isn't halted.
    if stocks.halted(old.stock) {
        return Ok(Deed::rejected(stamp, u.replacement, HALTED));
    }
    if bad_details(host, &old, u) {
        let all = old.open().all();
        return Ok(Deed::canceled(stamp, (place, old), all, USER_REQUESTED));
    }
    Ok(replaced(host, stamp, (place, old), u))
}

/// Shares are the whole chain's total, so they must be above what it has spent; that is asked
/// before the new open is worked out.
fn bad_details(host: &Host, old: &Order, u: &Replace) -> bool {
    bad_shares(u.shares, host.header.settings.threshold)
        || u.shares <= old.spent()
        || bad_price(u.price, old.cross)
        || bad_display(u.display, old.cross)
        || bad_minimum(u.minimum, u.time_in_force, u.shares.open_above(old.spent()))
}

fn replaced(host: &Host, stamp: Stamp, (place, old): (usize, Order), u: &Replace) -> Deed {
    let new = successor(&old, u, host.header.next_reference);
    let message = Replaced {
        stamp,
        token: new.token,
        side: new.side,
        shares: new.open(),
        stock: new.stock,
        price: new.price,
        time_in_force: new.time_in_force,
        firm: new.firm,
        display: new.display,
        reference: new.reference,
        capacity: new.capacity,
        sweep: new.sweep,
        minimum: new.minimum,
        cross: new.cross,
        state: LIVE,
        previous: u.existing,
        weight: NO_WEIGHT,
    };
    let mut ended = old;
    ended.die();
    Deed {
        sends: Some(Sent::new(&message)),
        rewrites: Some((place, ended)),
        stores: Some(Record::Order(new)),
        takes_reference: true,
        ..Deed::default()
    }
}

/// Side, stock, firm, capacity, cross and the spent shares come from the old order.
fn successor(old: &Order, u: &Replace, reference: u64) -> Order {
    Order {
        token: u.replacement,
        side: old.side,
        liable: u.shares,
        executed: old.executed,
        self_matched: old.self_matched,
        stock: old.stock,
        price: u.price,
        time_in_force: accepted_time_in_force(u.time_in_force),
        firm: old.firm,
        display: u.display,
        capacity: old.capacity,
        sweep: u.sweep.0,
        minimum: u.minimum,
        cross: old.cross,
        reference,
        flags: Flags::default(),
        previous: u.existing.0,
        last_byte: 0,
    }
}
