//! A test's desk: a table, a ring and its marks and a list of stocks, with entries written byte by
//! byte from the paper.

use crate::tapes::counts::{old_form, recount, table_len};
use crate::tapes::judged::{Field, Judged};
use crate::{Told, fresh, read, release, step};

pub const ROOMY_RING: usize = 4_096;
/// The stocks that tests enter orders in, all trading.
const STOCKS: &[u8] = b"A       TABCDEFGHTIBM     TZZZZZZZZT";

/// Where the desk's bytes are; every step is watched for changes that its answer doesn't allow.
#[derive(Clone)]
pub struct Desk {
    pub table: Vec<u8>,
    pub ring: Vec<u8>,
    pub at: usize,
    pub held: usize,
    pub stocks: Vec<u8>,
}

impl Desk {
    /// A fresh table under threshold 1,000,000 with the firms ABCD and EF.
    pub fn before_open(records: usize) -> Desk {
        let mut table = vec![0xaa; table_len(records)];
        assert_eq!(fresh(&mut table, 1_000_000, &[*b"ABCD", *b"EF  "]), 0);
        Desk {
            table,
            ring: vec![0; ROOMY_RING],
            at: 0,
            held: 0,
            stocks: STOCKS.to_vec(),
        }
    }

    /// The same after the start of the day.
    pub fn open(records: usize) -> Desk {
        let mut desk = Desk::before_open(records);
        assert_eq!(desk.answer(&system(1, b'S')), 0);
        desk.empty();
        desk
    }

    /// 500 entered under "A", 100 executed: where most worked numbers begin.
    pub fn worked() -> Desk {
        Desk::worked_as(O::good("A"))
    }

    pub fn worked_as(order: O) -> Desk {
        let mut desk = Desk::open(8);
        assert_eq!(desk.sent(&order.entry(2))[0], b'A');
        assert_eq!(desk.sent(&execution(3, order.token, 100))[0], b'E');
        desk
    }

    /// 500 entered under "A" for the closing cross, 100 executed, and the late period begun.
    pub fn late() -> Desk {
        let mut desk = Desk::worked_as(O {
            cross: b'C',
            ..O::good("A")
        });
        assert_eq!(desk.sent(&token_only(b'l', 4, "A")), b"");
        desk
    }

    /// The step's answer.
    pub fn answer(&mut self, entry: &[u8]) -> u8 {
        self.told(entry).answer
    }

    /// What the step tells. A refusal may change nothing; a done entry moves the last stamp and leaves
    /// bits and sum as a walk finds them; only h touches the list of stocks; and a place is told with
    /// 3 only, never the kind's.
    pub fn told(&mut self, entry: &[u8]) -> Told {
        let before = self.clone();
        let told = step(
            &mut self.table,
            &mut self.ring,
            &mut self.at,
            &mut self.held,
            &mut self.stocks,
            entry,
        );
        let answer = told.answer;
        assert_eq!(told.place > 0, answer == 3, "{told:?}");
        assert_eq!(self.at, before.at, "a step moves no read place");
        if answer != 0 || entry[0] != b'h' {
            assert_eq!(self.stocks, before.stocks, "only a done h touches the list");
        }
        if answer != 0 {
            assert_eq!(
                self.table, before.table,
                "refused with {answer}, yet the table changed"
            );
            assert_eq!(
                self.ring, before.ring,
                "refused with {answer}, yet the ring changed"
            );
            assert_eq!(
                self.held, before.held,
                "refused with {answer}, yet the count changed"
            );
        } else {
            assert_eq!(
                self.table[8..16],
                entry[1..9],
                "the entry's stamp becomes the last"
            );
            assert_eq!(self.table, self.recounted(), "bits and sum are true");
        }
        told
    }

    /// What a done entry sends; the outbox is emptied before and after.
    pub fn sent(&mut self, entry: &[u8]) -> Vec<u8> {
        self.empty();
        assert_eq!(self.answer(entry), 0);
        self.empty()
    }

    /// Takes all held bytes out.
    pub fn empty(&mut self) -> Vec<u8> {
        let mut out = Vec::new();
        while self.held > 0 {
            let run = read(&self.ring, self.at, self.held);
            out.extend(run);
            let k = run.len();
            assert_eq!(release(self.ring.len(), &mut self.at, &mut self.held, k), 0);
        }
        out
    }

    /// The same with these stocks listed, in whatever order they are given.
    pub fn with_stocks(mut self, stocks: &[(&[u8; 8], u8)]) -> Desk {
        self.stocks = listed(stocks);
        self
    }

    /// The same with this stock in this state.
    pub fn with_state(mut self, symbol: &[u8; 8], state: u8) -> Desk {
        let mut places = self.stocks.chunks_exact_mut(9);
        let place = places.find(|place| place[..8] == symbol[..]);
        place.expect("the stock is listed")[8] = state;
        self
    }

    /// An empty ring of another length.
    pub fn with_ring(mut self, len: usize) -> Desk {
        (self.ring, self.at, self.held) = (vec![0; len], 0, 0);
        self
    }

    /// Leaves exactly so many bytes free.
    pub fn with_free(mut self, free: usize) -> Desk {
        self.held = self.ring.len() - free;
        self
    }

    /// The bits behind the records.
    pub fn bits(&self) -> &[u8] {
        &self.table[old_form(&self.table).len()..]
    }

    /// The sum of open shares.
    pub fn sum(&self) -> u64 {
        number(&self.table[60..64])
    }

    /// The table with the bits and the sum of its records, whatever they were.
    pub fn recounted(&self) -> Vec<u8> {
        let mut table = self.table.clone();
        recount(&mut table);
        table
    }

    pub fn row(&self, place: usize) -> &[u8] {
        &self.table[64 + 80 * place..][..80]
    }

    pub fn row_mut(&mut self, place: usize) -> &mut [u8] {
        &mut self.table[64 + 80 * place..][..80]
    }

    pub fn used(&self) -> u64 {
        number(&self.table[4..8])
    }

    pub fn next_reference(&self) -> u64 {
        number(&self.table[16..24])
    }

    /// State, liable, executed and self-matched of a record.
    pub fn shares(&self, place: usize) -> (char, u64, u64, u64) {
        let row = self.row(place);
        (
            char::from(row[0]),
            number(&row[16..20]),
            number(&row[20..24]),
            number(&row[24..28]),
        )
    }

    /// The byte of the firms' blocks.
    pub fn blocks(&self) -> u8 {
        self.table[3]
    }

    pub fn flags(&self, place: usize) -> u8 {
        self.row(place)[64]
    }
}

/// The big-endian number of these bytes.
pub fn number(bytes: &[u8]) -> u64 {
    bytes
        .iter()
        .fold(0, |number, &byte| number << 8 | u64::from(byte))
}

/// What is told of bytes at this place: 3, or 0 where no byte is bad.
pub fn told_at(place: Option<usize>) -> Told {
    Told {
        answer: if place.is_some() { 3 } else { 0 },
        place: place.unwrap_or(0),
    }
}

/// The smallest offset of a bad byte, each field judged by the paper's words once more.
pub fn first_bad(bytes: &[u8], fields: &[Field]) -> Option<usize> {
    let bad = |&(at, judged): &Field| match judged {
        Judged::Stamp => (number(&bytes[at..at + 8]) >= 86_400_000_000_000).then_some(at),
        Judged::Token => (at..at + 14)
            .find(|&place| !matches!(bytes[place], b'A'..=b'Z' | b'a'..=b'z' | b'0'..=b'9' | b' ')),
        Judged::Letter(legal) => (!legal.contains(&bytes[at])).then_some(at),
        Judged::Price => {
            let price = number(&bytes[at..at + 4]);
            (price == 0 || price > 1_999_999_900).then_some(at)
        }
        Judged::Blank => (bytes[at..at + 6] != *b"      ").then_some(at),
        Judged::Zero => (number(&bytes[at..at + 2]) != 0).then_some(at),
    };
    fields.iter().filter_map(bad).min()
}

pub fn token(name: &str) -> [u8; 14] {
    let mut token = [b' '; 14];
    token[..name.len()].copy_from_slice(name.as_bytes());
    token
}

/// An Enter of which a test changes what it is about.
#[derive(Clone, Copy)]
pub struct O {
    pub token: &'static str,
    pub side: u8,
    pub shares: u32,
    pub stock: [u8; 8],
    pub price: u32,
    pub time_in_force: u32,
    pub firm: [u8; 4],
    pub display: u8,
    pub capacity: u8,
    pub sweep: u8,
    pub minimum: u32,
    pub cross: u8,
}

impl O {
    pub fn good(token: &'static str) -> O {
        O {
            token,
            side: b'S',
            shares: 500,
            stock: *b"IBM     ",
            price: 1_234_500,
            time_in_force: 99_998,
            firm: *b"ABCD",
            display: b'A',
            capacity: b'P',
            sweep: b'N',
            minimum: 0,
            cross: b'N',
        }
    }

    pub fn entry(&self, stamp: u64) -> Vec<u8> {
        [
            b"O".as_slice(),
            &stamp.to_be_bytes(),
            &token(self.token),
            &[self.side],
            &self.shares.to_be_bytes(),
            &self.stock,
            &self.price.to_be_bytes(),
            &self.time_in_force.to_be_bytes(),
            &self.firm,
            &[self.display, self.capacity, self.sweep],
            &self.minimum.to_be_bytes(),
            &[self.cross],
        ]
        .concat()
    }
}

/// A Replace of which a test changes what it is about.
#[derive(Clone, Copy)]
pub struct U {
    pub existing: &'static str,
    pub replacement: &'static str,
    pub shares: u32,
    pub price: u32,
    pub time_in_force: u32,
    pub display: u8,
    pub sweep: u8,
    pub minimum: u32,
}

impl U {
    pub fn good(existing: &'static str, replacement: &'static str, shares: u32) -> U {
        U {
            existing,
            replacement,
            shares,
            price: 2_000_000,
            time_in_force: 60,
            display: b'Y',
            sweep: b'y',
            minimum: 0,
        }
    }

    pub fn entry(&self, stamp: u64) -> Vec<u8> {
        [
            b"U".as_slice(),
            &stamp.to_be_bytes(),
            &token(self.existing),
            &token(self.replacement),
            &self.shares.to_be_bytes(),
            &self.price.to_be_bytes(),
            &self.time_in_force.to_be_bytes(),
            &[self.display, self.sweep],
            &self.minimum.to_be_bytes(),
        ]
        .concat()
    }
}

pub fn replace(
    stamp: u64,
    existing: &'static str,
    replacement: &'static str,
    shares: u32,
) -> Vec<u8> {
    U::good(existing, replacement, shares).entry(stamp)
}

pub fn cancel(stamp: u64, name: &str, size: u32) -> Vec<u8> {
    [
        &token_only(b'X', stamp, name),
        size.to_be_bytes().as_slice(),
    ]
    .concat()
}

pub fn modify(stamp: u64, name: &str, side: u8, shares: u32) -> Vec<u8> {
    [
        &token_only(b'M', stamp, name),
        [side].as_slice(),
        &shares.to_be_bytes(),
    ]
    .concat()
}

pub fn execution(stamp: u64, name: &str, shares: u32) -> Vec<u8> {
    [
        &token_only(b'e', stamp, name),
        shares.to_be_bytes().as_slice(),
        &1_111_u32.to_be_bytes(),
        b"R",
        &77_u64.to_be_bytes(),
    ]
    .concat()
}

pub fn book_cancel(stamp: u64, name: &str, shares: u32) -> Vec<u8> {
    [
        &token_only(b'c', stamp, name),
        shares.to_be_bytes().as_slice(),
        b"T",
    ]
    .concat()
}

pub fn self_match(stamp: u64, name: &str, shares: u32) -> Vec<u8> {
    [
        &token_only(b'q', stamp, name),
        shares.to_be_bytes().as_slice(),
        &60_u32.to_be_bytes(),
        &2_222_u32.to_be_bytes(),
        b"k",
    ]
    .concat()
}

pub fn priority(stamp: u64, name: &str, price: u32) -> Vec<u8> {
    [
        &token_only(b'p', stamp, name),
        price.to_be_bytes().as_slice(),
    ]
    .concat()
}

/// l and f, and the opening of the others.
pub fn token_only(kind: u8, stamp: u64, name: &str) -> Vec<u8> {
    [[kind].as_slice(), &stamp.to_be_bytes(), &token(name)].concat()
}

pub fn system(stamp: u64, code: u8) -> Vec<u8> {
    [b"s".as_slice(), &stamp.to_be_bytes(), &[code]].concat()
}

pub fn halt(stamp: u64, symbol: &[u8; 8], state: u8) -> Vec<u8> {
    [b"h".as_slice(), &stamp.to_be_bytes(), symbol, &[state]].concat()
}

pub fn mass_cancel(stamp: u64, firm: &[u8; 4], symbol: &[u8; 8]) -> Vec<u8> {
    [firm_only(b'w', stamp, firm).as_slice(), symbol].concat()
}

/// d and n, and the opening of w.
pub fn firm_only(kind: u8, stamp: u64, firm: &[u8; 4]) -> Vec<u8> {
    [[kind].as_slice(), &stamp.to_be_bytes(), firm].concat()
}

/// A list of these stocks, sorted by their bytes.
pub fn listed(stocks: &[(&[u8; 8], u8)]) -> Vec<u8> {
    let mut stocks = stocks.to_vec();
    stocks.sort();
    let places = stocks.iter();
    places
        .flat_map(|(symbol, state)| symbol.iter().copied().chain([*state]))
        .collect()
}

/// Messages as a test expects them.
pub fn canceled(stamp: u64, name: &str, decrement: u32, reason: u8) -> Vec<u8> {
    [
        &token_only(b'C', stamp, name),
        decrement.to_be_bytes().as_slice(),
        &[reason],
    ]
    .concat()
}

pub fn rejected(stamp: u64, name: &str, reason: u8) -> Vec<u8> {
    [&token_only(b'J', stamp, name), [reason].as_slice()].concat()
}

pub fn modified(stamp: u64, name: &str, side: u8, shares: u32) -> Vec<u8> {
    [
        &token_only(b'M', stamp, name),
        [side].as_slice(),
        &shares.to_be_bytes(),
    ]
    .concat()
}
