//! Entries that the book or the day brings: e c q p l f s h.

use super::chance::Chance;
use super::look::{Look, Row};
use super::tokens::token_to_name;
use super::values as v;

/// The liquidity flags.
const FLAGS: &[u8] = b"AROMCLHKJmkV";

pub fn execution(chance: &mut Chance, look: &Look) -> Vec<u8> {
    let row = chance.choose(&look.live()).copied();
    [
        &opening(b'e', chance, look, row),
        shares_of_open(chance, look, row).to_be_bytes().as_slice(),
        &v::price(chance).to_be_bytes(),
        &[chance.pick(FLAGS)],
        &chance.number().to_be_bytes(),
    ]
    .concat()
}

pub fn book_cancel(chance: &mut Chance, look: &Look) -> Vec<u8> {
    let row = chance.choose(&look.live()).copied();
    [
        &opening(b'c', chance, look, row),
        shares_of_open(chance, look, row).to_be_bytes().as_slice(),
        &[chance.pick(b"ITSDZE")],
    ]
    .concat()
}

pub fn self_match(chance: &mut Chance, look: &Look) -> Vec<u8> {
    let row = chance.choose(&look.live()).copied();
    [
        &opening(b'q', chance, look, row),
        shares_of_open(chance, look, row).to_be_bytes().as_slice(),
        &v::shares_about(chance, look, row).to_be_bytes(),
        &v::price(chance).to_be_bytes(),
        &[chance.pick(FLAGS)],
    ]
    .concat()
}

pub fn priority(chance: &mut Chance, look: &Look) -> Vec<u8> {
    let row = chance.choose(&look.live()).copied();
    let price = match chance.below(12) {
        0 => chance.pick(&[0, 1_999_999_901, 2_147_483_647, u32::MAX]),
        1 => chance.pick(&[1, 1_999_999_900]),
        _ => 1 + chance.below(1_999_999_900) as u32,
    };
    [
        &opening(b'p', chance, look, row),
        price.to_be_bytes().as_slice(),
    ]
    .concat()
}

pub fn late_begins(chance: &mut Chance, look: &Look) -> Vec<u8> {
    let mut rows = look.live();
    if !chance.one_in(6) {
        rows.retain(|row| row.in_cross() && !row.late());
    }
    let row = chance.choose(&rows).copied();
    opening(b'l', chance, look, row)
}

pub fn cross_done(chance: &mut Chance, look: &Look) -> Vec<u8> {
    let mut rows = look.live();
    if !chance.one_in(6) {
        rows.retain(|row| row.late());
    }
    let row = chance.choose(&rows).copied();
    opening(b'f', chance, look, row)
}

/// Mostly the code that the day waits for; now and then no code at all.
pub fn system(chance: &mut Chance, look: &Look) -> Vec<u8> {
    let fitting = if look.day() == 0 { b'S' } else { b'E' };
    let code = match chance.below(12) {
        0 => chance.pick(b"QMHCsexOR \0"),
        1 | 2 => chance.pick(b"SE"),
        _ => fitting,
    };
    [
        b"s".as_slice(),
        &v::stamp(chance, look).to_be_bytes(),
        &[code],
    ]
    .concat()
}

/// Halts a stock, often one that an order is in, or lets one trade again.
pub fn halt(chance: &mut Chance, look: &Look) -> Vec<u8> {
    let (symbol, state) = halted_or_freed(chance, look);
    let state = match chance.below(24) {
        0 => chance.pick(b"thSX \0"),
        1..=4 => chance.pick(b"TH"),
        _ => state,
    };
    [
        b"h".as_slice(),
        &v::stamp(chance, look).to_be_bytes(),
        &symbol,
        &[state],
    ]
    .concat()
}

/// A symbol and the state that it is to have. What is halted is often freed soon, so that a day
/// goes on as it would without halts.
fn halted_or_freed(chance: &mut Chance, look: &Look) -> ([u8; 8], u8) {
    let halted = !look.stocks_in(b'H').is_empty();
    let row = chance.choose(&look.live()).copied();
    match (chance.below(12), row) {
        (0, _) => (v::near_symbol(chance, look), chance.pick(b"TH")),
        (1..=4, _) if halted => (v::symbol_in(chance, look, b'H'), b'T'),
        (5..=9, Some(row)) => (row.stock(), chance.pick(b"HHHT")),
        _ => (v::symbol_in(chance, look, b'T'), b'H'),
    }
}

/// Kind, stamp and token.
fn opening(kind: u8, chance: &mut Chance, look: &Look, row: Option<Row>) -> Vec<u8> {
    [
        [kind].as_slice(),
        &v::stamp(chance, look).to_be_bytes(),
        &token_to_name(chance, look, row),
    ]
    .concat()
}

/// Half the time a part of what is open, so that orders live through several events.
fn shares_of_open(chance: &mut Chance, look: &Look, row: Option<Row>) -> u32 {
    let open = row.map_or(0, Row::open);
    match chance.below(8) {
        0..=3 => 1 + chance.below(u64::from(open / 4).max(1)) as u32,
        4 => open,
        5 => open.saturating_add(1),
        _ => v::shares_about(chance, look, row),
    }
}
