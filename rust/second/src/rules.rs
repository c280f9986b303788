//! What each entry does, decided without changing anything: a rule gives a deed or a refusal.

mod book;
mod cancel;
mod details;
mod enter;
mod halt;
mod modify;
mod purge;
mod replace;
mod system;

use crate::answer::Answer;
use crate::entry::Entry;
use crate::field::{Stamp, StockState, Token};
use crate::host::Host;
use crate::layout::Message;
use crate::messages::{Canceled, Rejected};
use crate::order::{Order, Record};
use crate::shares::Removed;
use crate::stocks::Stocks;
use crate::table::Day;

/// The reason of a cancel that the client asked for.
const USER_REQUESTED: u8 = b'U';
/// The reason of a reject whose stock is halted.
const HALTED: u8 = b'H';
/// The longest outbound message, Replaced.
const LONGEST_OUTBOUND: usize = 80;

/// Answers 4 first; then the entry's own rule answers 15, 1, 5, 7 or 6, or says what is to be done.
pub fn decide(host: &Host, stocks: &Stocks, entry: &Entry) -> Result<Deed, Answer> {
    if entry.stamp() < host.header.last_stamp {
        return Err(Answer::StampBelowLast);
    }
    match entry {
        Entry::Enter(stamp, o) => enter::enter(host, stocks, *stamp, o),
        Entry::Replace(stamp, u) => replace::replace(host, stocks, *stamp, u),
        Entry::Cancel(stamp, x) => cancel::cancel(host, *stamp, x),
        Entry::Modify(stamp, m) => modify::modify(host, *stamp, m),
        Entry::Execution(e) => book::execute(host, e),
        Entry::BookCancel(c) => book::book_cancel(host, c),
        Entry::SelfMatch(q) => book::self_match(host, q),
        Entry::Priority(p) => book::priority(host, p),
        Entry::LateBegins(l) => book::late_begins(host, l),
        Entry::CrossDone(f) => book::cross_done(host, f),
        Entry::System(s) => system::system(host, s),
        Entry::Halt(h) => halt::halt(stocks, h),
        Entry::MassCancel(w) => purge::mass_cancel(host, w),
        Entry::Disable(d) => purge::disable(host, d),
        Entry::Enable(n) => purge::enable(host, n),
    }
}

/// All that a done entry changes, apart from the last stamp.
#[derive(Clone, Debug, Default)]
pub struct Deed {
    pub sends: Option<Sent>,
    pub rewrites: Option<(usize, Order)>,
    pub stores: Option<Record>,
    pub takes_reference: bool,
    pub day: Option<Day>,
    /// A place of the list of stocks and its state.
    pub sets: Option<(usize, StockState)>,
    /// A place of the firms, and whether its new orders are blocked from now on.
    pub blocks: Option<(usize, bool)>,
}

impl Deed {
    /// A Rejected, which uses up the token it names.
    fn rejected(stamp: Stamp, token: Token, reason: u8) -> Deed {
        Deed {
            sends: Some(Sent::new(&Rejected {
                stamp,
                token,
                reason,
            })),
            stores: Some(Record::Rejected(token)),
            ..Deed::default()
        }
    }

    /// A Canceled; liable falls by the decrement, which may end the order.
    fn canceled(
        stamp: Stamp,
        (place, mut order): (usize, Order),
        decrement: Removed,
        reason: u8,
    ) -> Deed {
        order.liable = order.liable.reduced_by(decrement);
        let token = order.token;
        Deed {
            sends: Some(Sent::new(&Canceled {
                stamp,
                token,
                decrement,
                reason,
            })),
            rewrites: Some((place, order)),
            ..Deed::default()
        }
    }

    /// A message about an order whose record is written again.
    fn told(message: &impl Message, place: usize, order: Order) -> Deed {
        Deed {
            sends: Some(Sent::new(message)),
            rewrites: Some((place, order)),
            ..Deed::default()
        }
    }
}

/// The bytes of the one message that a done entry sends.
#[derive(Clone, Debug)]
pub struct Sent {
    bytes: [u8; LONGEST_OUTBOUND],
    len: usize,
}

impl Sent {
    /// The message's bytes. Its stamp and tokens come from a judged entry or a sound table, so the
    /// writer's checks could refuse nothing and aren't made again.
    fn new<M: Message>(message: &M) -> Sent {
        let mut bytes = [0; LONGEST_OUTBOUND];
        bytes[0] = M::KIND;
        message.put(&mut bytes);
        Sent { bytes, len: M::LEN }
    }

    /// What goes into the outbox.
    pub fn bytes(&self) -> &[u8] {
        &self.bytes[..self.len]
    }
}
