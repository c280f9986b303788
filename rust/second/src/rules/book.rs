//! e c q p l f: what the book does to an order of ours.

use super::details::NO_CROSS;
use super::{Deed, USER_REQUESTED};
use crate::answer::Answer;
use crate::entry::{BookCancel, CrossDone, Execution, LateBegins, Priority, SelfMatch};
use crate::field::Token;
use crate::host::Host;
use crate::messages::{AiqCancelled, Executed, PriorityUpdate};
use crate::order::Order;
use crate::shares::Removed;

/// The reason that every AIQ Cancelled gives.
const SELF_MATCH_PREVENTED: u8 = b'Q';
/// The display that a priority update gives.
const PRICE_TO_COMPLY: u8 = b'Y';

pub fn execute(host: &Host, e: &Execution) -> Result<Deed, Answer> {
    let (place, mut order) = live(host, e.token)?;
    day_open(host)?;
    within_open(&order, e.shares)?;
    order.executed = order.executed.grown_by(e.shares);
    let message = Executed {
        stamp: e.stamp,
        token: e.token,
        shares: e.shares,
        price: e.price,
        flag: e.flag.0,
        match_number: e.match_number,
    };
    Ok(Deed::told(&message, place, order))
}

/// The book may cancel whatever the day, as document 004 says of the time after the close.
pub fn book_cancel(host: &Host, c: &BookCancel) -> Result<Deed, Answer> {
    let (place, order) = live(host, c.token)?;
    within_open(&order, c.shares)?;
    Ok(Deed::canceled(
        c.stamp,
        (place, order),
        c.shares,
        c.reason.0,
    ))
}

pub fn self_match(host: &Host, q: &SelfMatch) -> Result<Deed, Answer> {
    let (place, mut order) = live(host, q.token)?;
    day_open(host)?;
    within_open(&order, q.shares)?;
    order.self_matched = order.self_matched.grown_by(q.shares);
    let message = AiqCancelled {
        stamp: q.stamp,
        token: q.token,
        decrement: q.shares,
        reason: SELF_MATCH_PREVENTED,
        prevented: q.prevented,
        price: q.price,
        flag: q.flag.0,
    };
    Ok(Deed::told(&message, place, order))
}

pub fn priority(host: &Host, p: &Priority) -> Result<Deed, Answer> {
    let (place, mut order) = live(host, p.token)?;
    day_open(host)?;
    order.price = p.price.0;
    order.display = PRICE_TO_COMPLY;
    order.reference = host.header.next_reference;
    let message = PriorityUpdate {
        stamp: p.stamp,
        token: p.token,
        price: order.price,
        display: order.display,
        reference: order.reference,
    };
    Ok(Deed {
        takes_reference: true,
        ..Deed::told(&message, place, order)
    })
}

/// Sends nothing, so a full outbox doesn't stop it.
pub fn late_begins(host: &Host, l: &LateBegins) -> Result<Deed, Answer> {
    let (place, mut order) = live(host, l.token)?;
    day_open(host)?;
    if order.cross == NO_CROSS || order.flags.late {
        return Err(Answer::WrongMoment);
    }
    order.flags.late = true;
    Ok(silent(place, order))
}

/// Sends only where a cancel was pending.
pub fn cross_done(host: &Host, f: &CrossDone) -> Result<Deed, Answer> {
    let (place, mut order) = live(host, f.token)?;
    if !order.flags.late {
        return Err(Answer::WrongMoment);
    }
    order.flags.late = false;
    if !order.flags.pending {
        return Ok(silent(place, order));
    }
    order.flags.pending = false;
    let all = order.open().all();
    Ok(Deed::canceled(f.stamp, (place, order), all, USER_REQUESTED))
}

/// A deed that rewrites a record and tells nobody.
fn silent(place: usize, order: Order) -> Deed {
    Deed {
        rewrites: Some((place, order)),
        ..Deed::default()
    }
}

/// 5: the token isn't live.
fn live(host: &Host, token: Token) -> Result<(usize, Order), Answer> {
    host.live(token).ok_or(Answer::NotLive)
}

/// 7: the day isn't open.
fn day_open(host: &Host) -> Result<(), Answer> {
    host.day_open().then_some(()).ok_or(Answer::WrongMoment)
}

/// 6: shares 0 or above open.
fn within_open(order: &Order, shares: Removed) -> Result<(), Answer> {
    let within = shares > Removed(0) && shares <= order.open().all();
    within.then_some(()).ok_or(Answer::WrongShares)
}
