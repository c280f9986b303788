//! Lists of stocks made by hand: good ones of every shape, often with the stocks of a table's orders.

use std::collections::BTreeMap;

use super::chance::Chance;
use super::look::Look;
use super::values::GOOD_STOCKS;

/// The most places of a list.
pub const MOST_PLACES: usize = 2_000;
/// Symbols that no stock has, or that only their last byte, their high bits or a shorter name tell
/// from another.
const ODD_SYMBOLS: [[u8; 8]; 14] = [
    [0; 8],
    [0xff; 8],
    *b"        ",
    *b"IBM\0\0\0\0\0",
    *b"IBm     ",
    *b"IB M    ",
    *b" IBM    ",
    *b"IBM    A",
    *b"IBM    \x80",
    *b"\x7f\xff\xff\xff\xff\xff\xff\xff",
    *b"\x80       ",
    *b"A\x80      ",
    *b"ABCDEFGI",
    *b"ZZZZZZZ ",
];

/// Symbols and their states.
type List = BTreeMap<[u8; 8], u8>;

/// A good list: most have the stocks that orders are entered in, half of them those of this table's
/// orders too, and most stocks trade. Few lists are long, since each step shows the whole list.
pub fn good_list(chance: &mut Chance, table: &[u8]) -> Vec<u8> {
    let mut list = List::new();
    match chance.below(60) {
        0 | 1 => {}
        2..=5 => some_of(chance, &mut list, &GOOD_STOCKS),
        _ => usual(chance, &mut list, table),
    }
    match chance.below(400) {
        0 => fill(chance, &mut list, MOST_PLACES),
        1 => fill(chance, &mut list, MOST_PLACES - 1),
        2..=5 => {
            let places = 100 + chance.place(600);
            fill(chance, &mut list, places);
        }
        _ => {}
    }
    written(&list)
}

/// The stocks of the tapes and of the table's orders, and some odd symbols.
fn usual(chance: &mut Chance, list: &mut List, table: &[u8]) {
    let look = Look::at(table, &[]);
    let rows = look.records();
    // Few of a long table's, for the list's own sake.
    let traded: Vec<[u8; 8]> = rows.iter().take(12).map(|row| row.stock()).collect();
    most_of(chance, list, &GOOD_STOCKS);
    if chance.one_in(2) {
        most_of(chance, list, &traded);
    }
    if chance.one_in(2) {
        some_of(chance, list, &ODD_SYMBOLS);
    }
}

fn most_of(chance: &mut Chance, list: &mut List, symbols: &[[u8; 8]]) {
    for &symbol in symbols {
        if !chance.one_in(12) {
            list.insert(symbol, state(chance));
        }
    }
}

fn some_of(chance: &mut Chance, list: &mut List, symbols: &[[u8; 8]]) {
    for &symbol in symbols {
        if chance.one_in(4) {
            list.insert(symbol, state(chance));
        }
    }
}

/// Lists further symbols until there are so many.
fn fill(chance: &mut Chance, list: &mut List, places: usize) {
    while list.len() < places {
        let any = chance.number().to_be_bytes();
        let capitals = any.map(|byte| b'A' + byte % 26);
        let symbol = if chance.one_in(8) { any } else { capitals };
        let state = state(chance);
        list.entry(symbol).or_insert(state);
    }
}

/// Mostly trading.
fn state(chance: &mut Chance) -> u8 {
    chance.weighted(&[(4, b'T'), (1, b'H')])
}

/// The list's bytes; a map gives its symbols by their bytes.
fn written(list: &List) -> Vec<u8> {
    let places = list.iter();
    places
        .flat_map(|(symbol, &state)| symbol.iter().copied().chain([state]))
        .collect()
}

/// The list with further trading stocks, until it has so many places; a good list stays ascending.
pub fn lengthened(chance: &mut Chance, list: &[u8], places: usize) -> Vec<u8> {
    let look = Look::at(&[], list);
    let mut longer: List = look.stocks().into_iter().collect();
    fill(chance, &mut longer, places);
    written(&longer)
}
