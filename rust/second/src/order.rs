//! A record of the table: an order, live or dead, or a token that a Rejected used up.

use crate::field::{Field, Token};
use crate::layout::{Fields, fields};
use crate::shares::{Open, Total};

/// A record's bytes.
pub const RECORD_LEN: usize = 80;
/// The most shares a chain is liable for.
const MOST_LIABLE: u32 = 999_999;
/// State letters.
pub const LIVE: u8 = b'L';
const DEAD: u8 = b'D';
const REJECTED: u8 = b'R';
/// Where a rejected token ends; all behind it is zero.
const TOKEN_END: usize = 15;

fields! {
    /// An order. Its state isn't kept: in a sound table it is live exactly while shares are open.
    Order {
        1 token: Token,
        15 side: u8,
        16 liable: Total,
        20 executed: Total,
        24 self_matched: Total,
        28 stock: [u8; 8],
        36 price: u32,
        40 time_in_force: u32,
        44 firm: [u8; 4],
        48 display: u8,
        49 capacity: u8,
        50 sweep: u8,
        51 minimum: u32,
        55 cross: u8,
        56 reference: u64,
        64 flags: Flags,
        65 previous: [u8; 14],
        79 last_byte: u8,
    }
}

impl Order {
    /// Executed + self-matched: the shares that no cancel can take back. Replace and Modify count
    /// from here, Cancel from executed alone.
    pub fn spent(&self) -> Total {
        self.executed.and(self.self_matched)
    }

    /// What is still exposed.
    pub fn open(&self) -> Open {
        self.liable.open_above(self.spent())
    }

    /// An order whose open reaches 0 is dead.
    pub fn live(&self) -> bool {
        self.open() > Open(0)
    }

    /// Ends the order: a dead record's liable is executed + self-matched.
    pub fn die(&mut self) {
        self.liable = self.spent();
    }
}

/// The flags byte of an order. Bits that the paper leaves unjudged are carried along.
#[derive(Clone, Copy, Debug, Default, PartialEq, Eq)]
pub struct Flags {
    pub late: bool,
    pub pending: bool,
    pub cancel_reject_sent: bool,
    unjudged: u8,
}

impl Field for Flags {
    const LEN: usize = 1;
    fn get(bytes: &[u8]) -> Self {
        let byte = bytes[0];
        Flags {
            late: byte & 1 != 0,
            pending: byte & 2 != 0,
            cancel_reject_sent: byte & 4 != 0,
            unjudged: byte & !7,
        }
    }
    fn put(self, out: &mut [u8]) {
        let known = u8::from(self.late)
            | u8::from(self.pending) << 1
            | u8::from(self.cancel_reject_sent) << 2;
        out[0] = self.unjudged | known;
    }
}

/// A used record.
#[derive(Clone, Copy, Debug, PartialEq, Eq)]
pub enum Record {
    Order(Order),
    Rejected(Token),
}

impl Record {
    /// The record of 80 bytes, or nothing where they aren't sound.
    pub fn read(bytes: &[u8]) -> Option<Record> {
        let token = Token::get(&bytes[1..TOKEN_END]);
        if !token.good() {
            return None;
        }
        let state = bytes[0];
        if state == REJECTED {
            let zero = bytes[TOKEN_END..].iter().all(|&b| b == 0);
            return zero.then_some(Record::Rejected(token));
        }
        let order = Order::get(bytes);
        // Wide, since the bytes may hold any two numbers.
        let spent = u64::from(order.executed.0) + u64::from(order.self_matched.0);
        let liable = u64::from(order.liable.0);
        let sound = liable <= u64::from(MOST_LIABLE)
            && match state {
                LIVE => spent < liable,
                DEAD => spent == liable,
                _ => false,
            };
        sound.then_some(Record::Order(order))
    }

    /// Writes the record over 80 bytes.
    pub fn write(&self, out: &mut [u8]) {
        match self {
            Record::Order(order) => {
                out[0] = if order.live() { LIVE } else { DEAD };
                order.put(out);
            }
            Record::Rejected(token) => {
                out.fill(0);
                out[0] = REJECTED;
                token.put(&mut out[1..TOKEN_END]);
            }
        }
    }

    /// The order, where it is live.
    pub fn live(&self) -> Option<&Order> {
        match self {
            Record::Order(order) if order.live() => Some(order),
            _ => None,
        }
    }

    /// The token that the record stores.
    pub fn token(&self) -> Token {
        match self {
            Record::Order(order) => order.token,
            Record::Rejected(token) => *token,
        }
    }
}
