//! O: Enter Order is ignored, rejected with the first fault's letter, or accepted.

use super::details::{
    NO_WEIGHT, accepted_time_in_force, bad_display, bad_minimum, bad_price, bad_shares,
};
use super::{Deed, HALTED, Sent};
use crate::answer::Answer;
use crate::field::{Stamp, capitals_then_spaces};
use crate::host::Host;
use crate::messages::{Accepted, Enter};
use crate::order::{Flags, LIVE, Order, Record};
use crate::shares::{Open, Total};
use crate::stocks::Stocks;
use crate::table::Firm;

/// The firm's new orders are blocked.
const BLOCKED: u8 = b'a';

pub fn enter(host: &Host, stocks: &Stocks, stamp: Stamp, o: &Enter) -> Result<Deed, Answer> {
    if host.used(o.token) {
        return Err(Answer::Ignored);
    }
    let firm = host.header.settings.meant_by(o.firm);
    Ok(match fault(host, stocks, o, firm) {
        Some(letter) => Deed::rejected(stamp, o.token, letter),
        None => accepted(host, stamp, o, firm),
    })
}

/// The letter of the first fault, in the paper's order.
fn fault(host: &Host, stocks: &Stocks, o: &Enter, firm: Firm) -> Option<u8> {
    let settings = &host.header.settings;
    let all_open = Open(o.shares.0);
    // A list may have symbols that no stock has, so that being listed isn't enough.
    let known = capitals_then_spaces(&o.stock) && stocks.find(o.stock).is_some();
    let faults = [
        (!host.day_open(), b'C'),
        (settings.place_of(firm).is_none(), b'L'),
        (host.header.blocked(firm), BLOCKED),
        (!known, b'S'),
        (stocks.halted(o.stock), HALTED),
        (!b"NOC".contains(&o.cross), b'R'),
        (bad_display(o.display, o.cross), b'D'),
        (bad_price(o.price, o.cross), b'X'),
        (bad_shares(o.shares, settings.threshold), b'Z'),
        (bad_minimum(o.minimum, o.time_in_force, all_open), b'N'),
    ];
    faults
        .iter()
        .find(|(applies, _)| *applies)
        .map(|&(_, letter)| letter)
}

fn accepted(host: &Host, stamp: Stamp, o: &Enter, firm: Firm) -> Deed {
    let order = stored(o, firm, host.header.next_reference);
    let message = Accepted {
        stamp,
        token: order.token,
        side: order.side,
        shares: order.liable,
        stock: order.stock,
        price: order.price,
        time_in_force: order.time_in_force,
        firm: order.firm,
        display: order.display,
        reference: order.reference,
        capacity: order.capacity,
        sweep: order.sweep,
        minimum: order.minimum,
        cross: order.cross,
        state: LIVE,
        weight: NO_WEIGHT,
    };
    Deed {
        sends: Some(Sent::new(&message)),
        stores: Some(Record::Order(order)),
        takes_reference: true,
        ..Deed::default()
    }
}

/// The order as it is kept, which is also what the Accepted echoes.
fn stored(o: &Enter, firm: Firm, reference: u64) -> Order {
    let known_capacity = b"APR".contains(&o.capacity);
    Order {
        token: o.token,
        side: o.side.0,
        liable: o.shares,
        executed: Total(0),
        self_matched: Total(0),
        stock: o.stock,
        price: o.price,
        time_in_force: accepted_time_in_force(o.time_in_force),
        firm,
        display: o.display,
        capacity: if known_capacity { o.capacity } else { b'O' },
        sweep: o.sweep.0,
        minimum: o.minimum,
        cross: o.cross,
        reference,
        flags: Flags::default(),
        previous: [0; 14],
        last_byte: 0,
    }
}
