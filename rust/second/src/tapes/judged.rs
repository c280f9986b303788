//! Where a reader judges: the stamps, tokens, letters and prices of entries and messages, and what
//! must be blank or zero in the purge port's requests, by the papers' tables.

use Judged::{Blank, Letter, Price, Stamp, Token, Zero};

/// What is judged at a place.
#[derive(Clone, Copy, Debug, PartialEq, Eq)]
pub enum Judged {
    Stamp,
    /// Fourteen characters, each judged by itself.
    Token,
    /// A letter, one of these.
    Letter(&'static [u8]),
    /// The price of p.
    Price,
    /// Six spaces.
    Blank,
    /// Two bytes of zero.
    Zero,
}

/// A judged field: the offset of its first byte from the kind or type, and what it is.
pub type Field = (usize, Judged);

const SIDE: Judged = Letter(b"BSTE");
const SWEEP: Judged = Letter(b"YNy");
const FLAG: Judged = Letter(b"AROMCLHKJmkV");
const REASON: Judged = Letter(b"ITSDZE");
const CODE: Judged = Letter(b"SE");
const STATE: Judged = Letter(b"TH");

/// The kinds of entries.
pub const ENTRIES: &[u8] = b"OUXMecqplfshwdn";
/// The types of messages, inbound and outbound.
pub const INBOUND: &[u8] = b"OUXM";
pub const OUTBOUND: &[u8] = b"SAUCDEBJPITM";
/// The types of the purge port's requests.
pub const PORT: &[u8] = b"MDE";

/// The judged fields of an entry of this kind; none where the kind is unknown.
pub fn of_entry(kind: u8) -> &'static [Field] {
    match kind {
        b'O' => &[(1, Stamp), (9, Token), (23, SIDE), (50, SWEEP)],
        b'U' => &[(1, Stamp), (9, Token), (23, Token), (50, SWEEP)],
        b'M' => &[(1, Stamp), (9, Token), (23, SIDE)],
        b'X' | b'l' | b'f' => &[(1, Stamp), (9, Token)],
        b'e' => &[(1, Stamp), (9, Token), (31, FLAG)],
        b'c' => &[(1, Stamp), (9, Token), (27, REASON)],
        b'q' => &[(1, Stamp), (9, Token), (35, FLAG)],
        b'p' => &[(1, Stamp), (9, Token), (23, Price)],
        b's' => &[(1, Stamp), (9, CODE)],
        b'h' => &[(1, Stamp), (17, STATE)],
        b'w' | b'd' | b'n' => &[(1, Stamp)],
        _ => &[],
    }
}

/// The judged fields of a message of this type; none where the type is unknown.
pub fn of_message(inbound: bool, letter: u8) -> &'static [Field] {
    match (inbound, letter) {
        (true, b'O') => &[(1, Token), (15, SIDE), (42, SWEEP)],
        (true, b'U') => &[(1, Token), (15, Token), (42, SWEEP)],
        (true, b'X') => &[(1, Token)],
        (true, b'M') => &[(1, Token), (15, SIDE)],
        (false, b'S') => &[(1, Stamp)],
        (false, b'U') => &[(1, Stamp), (9, Token), (65, Token)],
        (false, letter) if OUTBOUND.contains(&letter) => &[(1, Stamp), (9, Token)],
        _ => &[],
    }
}

/// The judged fields of a purge port's request of this type; none where the type is unknown.
pub fn of_request(letter: u8) -> &'static [Field] {
    match letter {
        b'M' => &[(9, Blank), (23, Zero)],
        b'D' | b'E' => &[(9, Blank)],
        _ => &[],
    }
}

/// Every place that such fields can be bad at: each character of a token, and the first byte of
/// what is bad as a whole.
pub fn places(fields: &[Field]) -> Vec<usize> {
    let of = |&(at, judged): &Field| match judged {
        Token => at..at + 14,
        Stamp | Letter(_) | Price | Blank | Zero => at..at + 1,
    };
    fields.iter().flat_map(of).collect()
}
