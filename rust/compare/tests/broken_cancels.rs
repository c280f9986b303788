//! Hosts that get a Cancel wrong in one way each, or count shares in a Replace or a Modify as only a
//! Cancel does, and every one is found out.
//!
//! A broken host is the second host with a Cancel of its own, whose rule one fault spoils.

mod common;

use std::ops::Range;

use compare::records::{RECORD_LEN, number, row};
use compare::{Command, Desk, Difference, Second, Told};
use second::tapes::counts::recount;

/// Where things stand in entries, as the paper counts.
const STAMP: Range<usize> = 1..9;
const TOKEN: Range<usize> = 9..23;
const SIZE: Range<usize> = 23..27;
const MODIFY_SHARES: Range<usize> = 24..28;
const REPLACE_SHARES: Range<usize> = 37..41;
/// The flags of a record.
const LATE: u8 = 1;
const PENDING: u8 = 2;
const REJECT_SENT: u8 = 4;
/// The answers to a Cancel whose order has been looked for.
const DONE: u8 = 0;
const IGNORED: u8 = 1;
const BLOCKED: u8 = 9;

#[derive(Clone, Copy, Debug, PartialEq)]
enum Fault {
    CountsSelfMatchedAsExecuted,
    EndsWhatIsBelowSelfMatched,
    TakesTheSizeForTheNewOpen,
    SetsLiableToTheSize,
    SetsLiableWithoutSelfMatched,
    ForgetsWhatWasSelfMatched,
    TellsTheSize,
    TellsLiableLessTheSize,
    TellsTheNewOpen,
    ComparesTheSizeWithLiable,
    ComparesTheSizeWithOpen,
    TakesTheOpenThatIsThere,
    RaisesWhatIsOpen,
    AsksForLateFirst,
    ComparesWithLiableWhileLate,
    SetsTheFlagWhenIgnoring,
    WaitsWithWhateverEndsTheOrder,
    AsksForNoPending,
    IgnoresASizeBelowExecuted,
    IgnoresTheSizeThatIsExecuted,
    LeavesAnEndedOrderLive,
    CountsExecutionsOnlyInAReplace,
    CountsExecutionsOnlyInAModify,
}

const FAULTS: [Fault; 23] = [
    Fault::CountsSelfMatchedAsExecuted,
    Fault::EndsWhatIsBelowSelfMatched,
    Fault::TakesTheSizeForTheNewOpen,
    Fault::SetsLiableToTheSize,
    Fault::SetsLiableWithoutSelfMatched,
    Fault::ForgetsWhatWasSelfMatched,
    Fault::TellsTheSize,
    Fault::TellsLiableLessTheSize,
    Fault::TellsTheNewOpen,
    Fault::ComparesTheSizeWithLiable,
    Fault::ComparesTheSizeWithOpen,
    Fault::TakesTheOpenThatIsThere,
    Fault::RaisesWhatIsOpen,
    Fault::AsksForLateFirst,
    Fault::ComparesWithLiableWhileLate,
    Fault::SetsTheFlagWhenIgnoring,
    Fault::WaitsWithWhateverEndsTheOrder,
    Fault::AsksForNoPending,
    Fault::IgnoresASizeBelowExecuted,
    Fault::IgnoresTheSizeThatIsExecuted,
    Fault::LeavesAnEndedOrderLive,
    Fault::CountsExecutionsOnlyInAReplace,
    Fault::CountsExecutionsOnlyInAModify,
];

/// What a Cancel asks of an order, and may change.
#[derive(Clone, Copy)]
struct Order {
    live: bool,
    liable: u32,
    executed: u32,
    self_matched: u32,
    flags: u8,
}

impl Order {
    fn read(record: &[u8]) -> Order {
        Order {
            live: record[0] == b'L',
            liable: number(&record[16..20]),
            executed: number(&record[20..24]),
            self_matched: number(&record[24..28]),
            flags: record[64],
        }
    }

    fn write(&self, record: &mut [u8]) {
        let shares = [self.liable, self.executed, self.self_matched];
        record[0] = if self.live { b'L' } else { b'D' };
        record[16..28].copy_from_slice(shares.map(u32::to_be_bytes).as_flattened());
        record[64] = self.flags;
    }

    fn has(&self, flag: u8) -> bool {
        self.flags & flag != 0
    }

    fn spent(&self) -> u32 {
        self.executed + self.self_matched
    }

    fn open(&self) -> u32 {
        self.liable - self.spent()
    }
}

/// What this fault would leave open.
fn new_open(fault: Option<Fault>, order: &Order, size: u32) -> u32 {
    match fault {
        Some(Fault::CountsSelfMatchedAsExecuted) => size.saturating_sub(order.spent()),
        Some(Fault::EndsWhatIsBelowSelfMatched) if size <= order.spent() => 0,
        Some(Fault::TakesTheSizeForTheNewOpen) => size,
        _ => size.saturating_sub(order.executed),
    }
}

/// Whether this fault takes the size for one that lowers what is open.
fn lowers(fault: Option<Fault>, order: &Order, size: u32) -> bool {
    let (new_open, open) = (new_open(fault, order, size), order.open());
    let late = order.has(LATE);
    match fault {
        Some(Fault::ComparesTheSizeWithLiable) => size < order.liable,
        Some(Fault::ComparesWithLiableWhileLate) if late => size < order.liable,
        Some(Fault::ComparesTheSizeWithOpen) => size < open,
        Some(Fault::TakesTheOpenThatIsThere) => new_open <= open,
        Some(Fault::RaisesWhatIsOpen) => new_open != open,
        Some(Fault::AsksForLateFirst) if late => true,
        Some(Fault::IgnoresASizeBelowExecuted) if size < order.executed => false,
        Some(Fault::IgnoresTheSizeThatIsExecuted) if size > 0 && size == order.executed => false,
        _ => new_open < open,
    }
}

/// What a Cancel sends: a Cancel Pending, a Cancel Reject, or a Canceled of so many shares.
enum Sent {
    Pending,
    Reject,
    Canceled(u32),
}

/// The rule as this fault has it: what is sent, or nothing where the Cancel is ignored.
fn rule(fault: Option<Fault>, order: &mut Order, size: u32) -> Option<Sent> {
    let has = |other| fault == Some(other);
    if order.has(PENDING) && !has(Fault::AsksForNoPending) {
        return None;
    }
    if !lowers(fault, order, size) {
        if has(Fault::SetsTheFlagWhenIgnoring) && order.has(LATE) {
            order.flags |= REJECT_SENT;
        }
        return None;
    }
    if order.has(LATE) {
        return late(fault, order, size);
    }
    Some(Sent::Canceled(lower(fault, order, size)))
}

/// What a Cancel sends in the late period.
fn late(fault: Option<Fault>, order: &mut Order, size: u32) -> Option<Sent> {
    let waits = match fault {
        Some(Fault::WaitsWithWhateverEndsTheOrder) => size <= order.executed,
        _ => size == 0,
    };
    if waits {
        order.flags |= PENDING;
        return Some(Sent::Pending);
    }
    let sends = !order.has(REJECT_SENT);
    order.flags |= REJECT_SENT;
    sends.then_some(Sent::Reject)
}

/// Lowers what is open, and gives the decrement to tell. Some faults come here with more than is
/// open.
fn lower(fault: Option<Fault>, order: &mut Order, size: u32) -> u32 {
    let Order {
        liable, executed, ..
    } = *order;
    let (new_open, open, spent) = (new_open(fault, order, size), order.open(), order.spent());
    if fault == Some(Fault::ForgetsWhatWasSelfMatched) {
        order.self_matched = 0;
    }
    order.live = new_open > 0 || fault == Some(Fault::LeavesAnEndedOrderLive);
    order.liable = match fault {
        Some(Fault::SetsLiableToTheSize) => size.max(spent),
        Some(Fault::SetsLiableWithoutSelfMatched | Fault::ForgetsWhatWasSelfMatched) => {
            executed + new_open
        }
        _ => spent.saturating_add(new_open),
    };
    match fault {
        Some(Fault::TellsTheSize) => size,
        Some(Fault::TellsLiableLessTheSize) => liable.saturating_sub(size),
        Some(Fault::TellsTheNewOpen) => new_open,
        _ => open.saturating_sub(new_open),
    }
}

/// Cancels as this fault does, and answers.
fn cancel(fault: Option<Fault>, desk: &mut Desk, entry: &[u8]) -> u8 {
    let Some(at) = row(&desk.table, &entry[TOKEN]) else {
        return IGNORED;
    };
    let mut order = Order::read(&desk.table[at..]);
    if !order.live {
        return IGNORED;
    }
    let answer = match rule(fault, &mut order, number(&entry[SIZE])) {
        None => IGNORED,
        Some(sent) if !put(desk, &message(&sent, entry)) => return BLOCKED,
        Some(_) => DONE,
    };
    order.write(&mut desk.table[at..at + RECORD_LEN]);
    if answer == DONE {
        desk.table[8..16].copy_from_slice(&entry[STAMP]);
        recount(&mut desk.table);
    }
    answer
}

fn message(sent: &Sent, entry: &[u8]) -> Vec<u8> {
    let (letter, rest) = match sent {
        Sent::Pending => (b"P", vec![]),
        Sent::Reject => (b"I", vec![]),
        Sent::Canceled(decrement) => (b"C", [&decrement.to_be_bytes()[..], b"U"].concat()),
    };
    [letter, &entry[STAMP], &entry[TOKEN], &rest].concat()
}

/// Puts a message behind the held bytes, where there is room.
fn put(desk: &mut Desk, message: &[u8]) -> bool {
    let Desk { ring, marks, .. } = desk;
    let len = ring.len();
    if message.len() > len - marks.held {
        return false;
    }
    for (place, byte) in (marks.at + marks.held..).zip(message) {
        ring[place % len] = *byte;
    }
    marks.held += message.len();
    true
}

/// The entry as this fault takes it. Where shares count executions only, the second host, which
/// counts self-matched ones too, is shown so many more.
fn misread(fault: Option<Fault>, table: &[u8], entry: &[u8]) -> Vec<u8> {
    let mut entry = entry.to_vec();
    let shares = match (fault, entry.first()) {
        (Some(Fault::CountsExecutionsOnlyInAReplace), Some(b'U')) => REPLACE_SHARES,
        (Some(Fault::CountsExecutionsOnlyInAModify), Some(b'M')) => MODIFY_SHARES,
        _ => return entry,
    };
    let at = entry.get(TOKEN).and_then(|token| row(table, token));
    if let (Some(at), Some(shares)) = (at, entry.get_mut(shares)) {
        let self_matched = number(&table[at + 24..at + 28]);
        let counted = number(shares).saturating_add(self_matched);
        shares.copy_from_slice(&counted.to_be_bytes());
    }
    entry
}

/// The second host's step with this fault, or with none.
fn step(fault: Option<Fault>, desk: &mut Desk, entry: &[u8]) -> Told {
    let mut right = desk.clone();
    let told = right.step(&Second, &misread(fault, &desk.table, entry));
    if let ([b'X', ..], DONE | IGNORED | BLOCKED) = (entry, told.answer) {
        let answer = cancel(fault, desk, entry);
        return Told { answer, ..told };
    }
    *desk = right;
    told
}

/// The difference that a host shows, if any.
fn difference(fault: Option<Fault>) -> Option<Box<Difference>> {
    common::difference_in_steps(|desk, entry| step(fault, desk, entry))
}

/// Each is found out by an entry of the kind that it gets wrong.
#[test]
fn every_fault_is_seen() {
    for fault in FAULTS {
        let kind = match fault {
            Fault::CountsExecutionsOnlyInAReplace => b'U',
            Fault::CountsExecutionsOnlyInAModify => b'M',
            _ => b'X',
        };
        let seen = difference(Some(fault)).map(|seen| seen.command);
        let Some(Command::Step(entry)) = seen else {
            panic!("never seen: {fault:?}");
        };
        assert_eq!(entry[0], kind, "{fault:?}");
    }
}

#[test]
fn a_host_without_a_fault_shows_none() {
    assert!(difference(None).is_none());
}

#[test]
fn a_difference_tells_where_it_is() {
    for (fault, part) in [
        (Fault::ComparesTheSizeWithLiable, "first in the answer"),
        (Fault::AsksForLateFirst, "first in the answer"),
        // Liable's bytes are 16 to 19, and the sum's 60 to 63: other shares that are open stand there
        // first.
        (Fault::SetsLiableWithoutSelfMatched, " of the table, byte 1"),
        (
            Fault::TakesTheSizeForTheNewOpen,
            "the table's header, byte 6",
        ),
        (Fault::SetsTheFlagWhenIgnoring, " of the table, byte 64"),
        (Fault::TellsTheNewOpen, "first in the ring, byte"),
    ] {
        let seen = difference(Some(fault));
        let told = seen.map(|seen| seen.to_string()).unwrap_or_default();
        assert!(told.contains(part), "{fault:?}: {told}");
    }
}
