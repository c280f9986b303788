//! w d n: a firm's orders are cancelled, one an entry, and its new ones are blocked or let in again.

use super::{Deed, USER_REQUESTED};
use crate::answer::Answer;
use crate::entry::{Disable, Enable, MassCancel};
use crate::host::Host;
use crate::order::Order;
use crate::stocks::Symbol;
use crate::table::Firm;

/// What w says instead of a symbol when it means all of them.
const ALL_SYMBOLS: Symbol = [b' '; 8];

/// Whatever the day, since orders outlive the close. Each w takes one order, as an entry sends one
/// message at most, and the same w offered again goes on with the next.
pub fn mass_cancel(host: &Host, w: &MassCancel) -> Result<Deed, Answer> {
    listed(host, w.firm)?;
    let (place, order) = host
        .live_orders()
        .find(|(_, order)| means(w, order))
        .ok_or(Answer::Ignored)?;
    let all = order.open().all();
    Ok(Deed::canceled(w.stamp, (place, order), all, USER_REQUESTED))
}

/// A late order waits for its cross, so it is passed over.
fn means(w: &MassCancel, order: &Order) -> bool {
    let in_symbol = w.symbol == ALL_SYMBOLS || w.symbol == order.stock;
    order.firm == w.firm && in_symbol && !order.flags.late
}

pub fn disable(host: &Host, d: &Disable) -> Result<Deed, Answer> {
    set_block(host, d.firm, true)
}

pub fn enable(host: &Host, n: &Enable) -> Result<Deed, Answer> {
    set_block(host, n.firm, false)
}

/// Whether or not the firm is blocked already, and whatever the day.
fn set_block(host: &Host, firm: Firm, blocked: bool) -> Result<Deed, Answer> {
    let place = listed(host, firm)?;
    Ok(Deed {
        blocks: Some((place, blocked)),
        ..Deed::default()
    })
}

/// 15: the firm isn't listed. A blank one isn't the default here, since a purge must name its firm.
fn listed(host: &Host, firm: Firm) -> Result<usize, Answer> {
    let place = host.header.settings.place_of(firm);
    place.ok_or(Answer::FirmNotListed)
}
