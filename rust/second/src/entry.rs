//! Entries of a tape: one byte of kind, a stamp, and a body whose length the kind fixes.

use crate::answer::Answer;
use crate::field::{BookReason, Field, Flag, PriorityPrice, Stamp, StockState, SystemCode, Token};
use crate::layout::{Message, messages};
use crate::messages::{Cancel, Enter, Modify, Replace};
use crate::shares::Removed;
use crate::stocks::Symbol;
use crate::table::Firm;

/// Where the stamp of every entry begins and ends.
const STAMP_AT: usize = 1;
const STAMP_END: usize = 9;
/// The stamp's bytes, by which an entry is longer than the inbound message it carries.
const STAMP_LEN: usize = STAMP_END - STAMP_AT;
/// The longest inbound message, Enter.
const LONGEST_INBOUND: usize = Enter::LEN;

messages! {
    /// The book executed shares.
    b'e' Execution 40 {
        1 stamp: Stamp,
        9 token: Token,
        23 shares: Removed,
        27 price: u32,
        31 flag: Flag,
        32 match_number: u64,
    }

    /// The book took shares away.
    b'c' BookCancel 28 {
        1 stamp: Stamp,
        9 token: Token,
        23 shares: Removed,
        27 reason: BookReason,
    }

    /// A self match was prevented.
    b'q' SelfMatch 36 {
        1 stamp: Stamp,
        9 token: Token,
        23 shares: Removed,
        27 prevented: u32,
        31 price: u32,
        35 flag: Flag,
    }

    /// The book gave the order another priority.
    b'p' Priority 27 {
        1 stamp: Stamp,
        9 token: Token,
        23 price: PriorityPrice,
    }

    /// The order's late period begins.
    b'l' LateBegins 23 {
        1 stamp: Stamp,
        9 token: Token,
    }

    /// The order's cross is done.
    b'f' CrossDone 23 {
        1 stamp: Stamp,
        9 token: Token,
    }

    /// The day opens or closes.
    b's' System 10 {
        1 stamp: Stamp,
        9 code: SystemCode,
    }

    /// A stock is halted, or trades again.
    b'h' Halt 18 {
        1 stamp: Stamp,
        9 symbol: Symbol,
        17 state: StockState,
    }

    /// A firm's next order is cancelled, in this symbol or in any.
    b'w' MassCancel 21 {
        1 stamp: Stamp,
        9 firm: Firm,
        13 symbol: Symbol,
    }

    /// A firm's new orders are blocked.
    b'd' Disable 13 {
        1 stamp: Stamp,
        9 firm: Firm,
    }

    /// A firm's new orders are let in again.
    b'n' Enable 13 {
        1 stamp: Stamp,
        9 firm: Firm,
    }
}

/// An entry whose length, letters, tokens and stamp are legal.
#[derive(Clone, Copy, Debug, PartialEq, Eq)]
pub enum Entry {
    Enter(Stamp, Enter),
    Replace(Stamp, Replace),
    Cancel(Stamp, Cancel),
    Modify(Stamp, Modify),
    Execution(Execution),
    BookCancel(BookCancel),
    SelfMatch(SelfMatch),
    Priority(Priority),
    LateBegins(LateBegins),
    CrossDone(CrossDone),
    System(System),
    Halt(Halt),
    MassCancel(MassCancel),
    Disable(Disable),
    Enable(Enable),
}

impl Entry {
    /// Judges kind and length (2), then stamp, tokens, letters and p's price (3 and the first bad
    /// byte's place).
    pub fn read(bytes: &[u8]) -> Result<Entry, Answer> {
        Ok(match bytes.first() {
            Some(b'O') => stamped(bytes, Entry::Enter)?,
            Some(b'U') => stamped(bytes, Entry::Replace)?,
            Some(b'X') => stamped(bytes, Entry::Cancel)?,
            Some(b'M') => stamped(bytes, Entry::Modify)?,
            Some(b'e') => Entry::Execution(Message::read(bytes)?),
            Some(b'c') => Entry::BookCancel(Message::read(bytes)?),
            Some(b'q') => Entry::SelfMatch(Message::read(bytes)?),
            Some(b'p') => Entry::Priority(Message::read(bytes)?),
            Some(b'l') => Entry::LateBegins(Message::read(bytes)?),
            Some(b'f') => Entry::CrossDone(Message::read(bytes)?),
            Some(b's') => Entry::System(Message::read(bytes)?),
            Some(b'h') => Entry::Halt(Message::read(bytes)?),
            Some(b'w') => Entry::MassCancel(Message::read(bytes)?),
            Some(b'd') => Entry::Disable(Message::read(bytes)?),
            Some(b'n') => Entry::Enable(Message::read(bytes)?),
            _ => return Err(Answer::WrongKindOrLength),
        })
    }

    /// The entry's stamp.
    pub fn stamp(&self) -> Stamp {
        match self {
            Entry::Enter(stamp, _)
            | Entry::Replace(stamp, _)
            | Entry::Cancel(stamp, _)
            | Entry::Modify(stamp, _) => *stamp,
            Entry::Execution(e) => e.stamp,
            Entry::BookCancel(c) => c.stamp,
            Entry::SelfMatch(q) => q.stamp,
            Entry::Priority(p) => p.stamp,
            Entry::LateBegins(l) => l.stamp,
            Entry::CrossDone(f) => f.stamp,
            Entry::System(s) => s.stamp,
            Entry::Halt(h) => h.stamp,
            Entry::MassCancel(w) => w.stamp,
            Entry::Disable(d) => d.stamp,
            Entry::Enable(n) => n.stamp,
        }
    }
}

/// Reads a stamp and an inbound message: the message's type is the kind, and the rest follows the
/// stamp, so the two are put together again and the message's own reader judges them.
fn stamped<M: Message>(bytes: &[u8], entry: fn(Stamp, M) -> Entry) -> Result<Entry, Answer> {
    if bytes.len() != M::LEN + STAMP_LEN {
        return Err(Answer::WrongKindOrLength);
    }
    // The stamp stands before all other fields, so a bad one is told whatever else is bad.
    let stamp = Stamp::get(&bytes[STAMP_AT..STAMP_END]);
    if let Some(byte) = stamp.bad_byte() {
        return Err(Answer::BadField(STAMP_AT + byte));
    }
    let mut message = [0; LONGEST_INBOUND];
    message[0] = bytes[0];
    message[1..M::LEN].copy_from_slice(&bytes[STAMP_END..]);
    // The message counts without the stamp, which stands before all that it judges.
    let message = M::read(&message[..M::LEN]).map_err(|refused| refused.moved_by(STAMP_LEN))?;
    Ok(entry(stamp, message))
}

/// The whole length of an entry of this kind, or nothing where the kind is unknown.
pub fn entry_length(kind: u8) -> Option<usize> {
    Some(match kind {
        b'O' => Enter::LEN + STAMP_LEN,
        b'U' => Replace::LEN + STAMP_LEN,
        b'X' => Cancel::LEN + STAMP_LEN,
        b'M' => Modify::LEN + STAMP_LEN,
        b'e' => Execution::LEN,
        b'c' => BookCancel::LEN,
        b'q' => SelfMatch::LEN,
        b'p' => Priority::LEN,
        b'l' => LateBegins::LEN,
        b'f' => CrossDone::LEN,
        b's' => System::LEN,
        b'h' => Halt::LEN,
        b'w' => MassCancel::LEN,
        b'd' => Disable::LEN,
        b'n' => Enable::LEN,
        _ => return None,
    })
}
