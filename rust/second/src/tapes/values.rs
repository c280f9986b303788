//! Values for fields: mostly good ones, and all those where a rule turns.

use super::chance::Chance;
use super::look::{Look, Row};

/// The first stamp that isn't legal.
pub const STAMPS_END: u64 = 24 * 3_600 * 1_000_000_000;
/// Stocks that are 1 to 8 capitals and then spaces.
pub const GOOD_STOCKS: [[u8; 8]; 6] = [
    *b"A       ",
    *b"IBM     ",
    *b"AAZZ    ",
    *b"ABCDEFG ",
    *b"ABCDEFGH",
    *b"ZZZZZZZZ",
];
/// And some that aren't; of two only one end tells that they aren't all spaces.
pub const BAD_STOCKS: [[u8; 8]; 12] = [
    *b"        ",
    *b"       A",
    *b" IBM    ",
    *b"IB M    ",
    *b"IBm     ",
    *b"IBM1    ",
    *b"IBM\0\0\0\0\0",
    *b"IBM@    ",
    *b"IBM[    ",
    *b"MSFTMSF1",
    *b"\0\0\0\0\0\0\0\0",
    *b"A      A",
];

/// Firms that are mostly unlisted. Zeros are what stands past the last firm.
const ODD_FIRMS: [[u8; 4]; 7] = [
    *b"ZZZZ", *b"    ", [0; 4], *b"   A", *b"abcd", *b"ABC\0", *b"ABCE",
];

/// Equal to the last, growing, and now and then below it or at the day's end.
pub fn stamp(chance: &mut Chance, look: &Look) -> u64 {
    let last = look.last_stamp();
    let wanted = match chance.below(2_000) {
        0 => STAMPS_END - 1,
        1..=39 => last.saturating_sub(1),
        40..=59 => chance.below(last.max(1)),
        60..=600 => last,
        601..=1_200 => last.saturating_add(1),
        _ => last.saturating_add(chance.below(50_000_000)),
    };
    wanted.min(STAMPS_END - 1)
}

/// Shares wherever a rule about this row turns, or anything between.
pub fn shares_about(chance: &mut Chance, look: &Look, row: Option<Row>) -> u32 {
    let (spent, open, liable) =
        row.map_or((0, 0, 0), |row| (row.spent(), row.open(), row.liable()));
    let turns = [spent, open, liable, look.threshold()];
    match chance.below(10) {
        0..=5 => around(chance, &turns),
        6 => chance.pick(&[0, 1, 999_999, 1_000_000, u32::MAX]),
        7 => chance.below(u64::from(open) + 1) as u32,
        _ => spent.saturating_add(chance.below(u64::from(open) + 1) as u32),
    }
}

/// An intended size wherever a Cancel of this row turns: at executed, up to which it leaves nothing
/// open; at executed + open, from which on it is ignored; at liable, where it would turn if
/// self-matched shares counted; or anything between. Often 0.
pub fn intended_size(chance: &mut Chance, look: &Look, row: Option<Row>) -> u32 {
    let (executed, self_matched, open) = row.map_or((0, 0, 0), |row| {
        (row.executed(), row.self_matched(), row.open())
    });
    let all = executed.saturating_add(open);
    let liable = all.saturating_add(self_matched);
    match chance.below(14) {
        0..=2 => 0,
        3 => chance.pick(&[1, u32::MAX]),
        4..=9 => around(chance, &[executed, all, liable]),
        10 | 11 => executed.saturating_add(chance.below(u64::from(open) + 1) as u32),
        12 => all.saturating_add(chance.below(u64::from(self_matched) + 1) as u32),
        _ => shares_about(chance, look, row),
    }
}

/// Shares for a new order: mostly what will be accepted.
pub fn shares_to_enter(chance: &mut Chance, look: &Look) -> u32 {
    let below = look.threshold().saturating_sub(1);
    match chance.below(20) {
        0 => around(chance, &[look.threshold()]),
        1 => chance.pick(&[0, 1, 999_999, 1_000_000, u32::MAX]),
        2..=4 => below,
        5..=9 => 1 + chance.below(u64::from(below)) as u32,
        10..=12 => below.min(2),
        _ => below.min(500),
    }
}

/// One of the numbers, or its neighbour.
fn around(chance: &mut Chance, numbers: &[u32]) -> u32 {
    let number = chance.pick(numbers);
    match chance.below(3) {
        0 => number.saturating_sub(1),
        1 => number,
        _ => number.saturating_add(1),
    }
}

/// A price: mostly legal whatever the cross.
pub fn price(chance: &mut Chance) -> u32 {
    match chance.below(14) {
        0 => chance.pick(&[0, 1_999_999_901, 2_147_483_646, 2_147_483_648, u32::MAX]),
        1..=2 => 2_147_483_647,
        3 => 1,
        4 => 1_999_999_900,
        _ => 1 + chance.below(1_999_999_900) as u32,
    }
}

/// Time in force and minimum together, since one judges the other; mostly good.
pub fn time_and_minimum(chance: &mut Chance, shares: u32) -> (u32, u32) {
    let minimums = [
        1,
        shares.saturating_sub(1),
        shares,
        shares.saturating_add(1),
        u32::MAX,
    ];
    let times = [1, 60, 99_997, 99_998, 99_999, 100_000, u32::MAX];
    match chance.below(10) {
        0 => (chance.pick(&times), chance.pick(&minimums)),
        1..=3 => (0, chance.pick(&minimums[..3])),
        4 => (0, chance.pick(&minimums)),
        5 => (0, 0),
        _ => (chance.pick(&times), 0),
    }
}

/// A firm for an order: blank, listed or, seldom, neither.
pub fn firm(chance: &mut Chance, look: &Look) -> [u8; 4] {
    let firms = look.firms();
    match chance.below(25) {
        0 => chance.pick(&ODD_FIRMS),
        1..=12 => *b"    ",
        _ => chance.choose(&firms).copied().unwrap_or(*b"ABCD"),
    }
}

/// A firm for the purge port, where a blank one isn't the default: mostly listed.
pub fn port_firm(chance: &mut Chance, look: &Look) -> [u8; 4] {
    let listed = look.firms();
    match chance.below(14) {
        0 | 1 => chance.pick(&ODD_FIRMS),
        2 => *b"    ",
        _ => chance.choose(&listed).copied().unwrap_or(*b"ABCD"),
    }
}

/// A stock for an order: mostly well formed, listed and trading.
pub fn stock(chance: &mut Chance, look: &Look) -> [u8; 8] {
    match chance.below(60) {
        0 | 1 => chance.pick(&BAD_STOCKS),
        2 => near_symbol(chance, look),
        3 | 4 => chance.pick(&GOOD_STOCKS),
        5 => {
            let state = chance.pick(b"TH");
            odd_symbol_in(chance, look, state)
        }
        6..=11 => stock_in(chance, look, b'H'),
        _ => stock_in(chance, look, b'T'),
    }
}

/// A listed and well-formed stock in this state, or any where there is none.
fn stock_in(chance: &mut Chance, look: &Look, state: u8) -> [u8; 8] {
    let any = chance.pick(&GOOD_STOCKS);
    let mut listed = look.stocks_in(state);
    listed.retain(well_formed);
    chance.choose(&listed).copied().unwrap_or(any)
}

/// A listed symbol in this state, or any stock where there is none.
pub fn symbol_in(chance: &mut Chance, look: &Look, state: u8) -> [u8; 8] {
    let any = chance.pick(&GOOD_STOCKS);
    let listed = look.stocks_in(state);
    chance.choose(&listed).copied().unwrap_or(any)
}

/// A listed symbol in this state that no stock has, since a list may have any, or whatever is listed
/// where there is none.
fn odd_symbol_in(chance: &mut Chance, look: &Look, state: u8) -> [u8; 8] {
    let any = symbol_in(chance, look, state);
    let mut odd = look.stocks_in(state);
    odd.retain(|symbol| !well_formed(symbol));
    chance.choose(&odd).copied().unwrap_or(any)
}

/// A symbol that differs from a listed one in a single byte, and is mostly unlisted.
pub fn near_symbol(chance: &mut Chance, look: &Look) -> [u8; 8] {
    let state = chance.pick(b"TH");
    let mut symbol = symbol_in(chance, look, state);
    let byte = chance.pick(&[0, 3, 6, 7, 7]);
    let letters = [
        b'A',
        b'Z',
        b' ',
        symbol[byte].wrapping_add(1),
        symbol[byte] ^ 0x80,
    ];
    symbol[byte] = chance.pick(&letters);
    symbol
}

/// Whether a symbol is some capitals and then spaces.
fn well_formed(symbol: &[u8; 8]) -> bool {
    let name = symbol.trim_ascii_end();
    !name.is_empty() && name.iter().all(u8::is_ascii_uppercase)
}

/// A cross: half without one, so that late periods are common.
pub fn cross(chance: &mut Chance) -> u8 {
    let any = chance.byte();
    chance.weighted(&[(48, b'N'), (25, b'O'), (25, b'C'), (1, b' '), (1, any)])
}

/// A display letter: mostly a legal one.
pub fn display(chance: &mut Chance) -> u8 {
    let any = chance.byte();
    let legal = chance.pick(b"AYNPMW");
    chance.weighted(&[(75, legal), (17, b'I'), (1, b'Z'), (1, b' '), (1, any)])
}

/// A capacity letter; the last ones aren't kept.
pub fn capacity(chance: &mut Chance) -> u8 {
    let any = chance.byte();
    chance.weighted(&[
        (10, b'A'),
        (10, b'P'),
        (10, b'R'),
        (3, b'O'),
        (2, b'p'),
        (2, any),
    ])
}
