//! Entries that the purge port brings: w d n.

use super::chance::Chance;
use super::look::{Look, Row};
use super::values as v;

/// What w says for all symbols.
const ALL_SYMBOLS: [u8; 8] = *b"        ";
/// A w's whole length.
const MASS_CANCEL_LEN: usize = 21;

/// Mostly means an order: its firm, and its symbol or all of them.
pub fn mass_cancel(chance: &mut Chance, look: &Look) -> Vec<u8> {
    let row = to_purge(chance, look);
    let firm = match row {
        Some(row) if !chance.one_in(4) => row.firm(),
        _ => v::port_firm(chance, look),
    };
    let symbol = match (chance.below(12), row) {
        (0..=5, _) => ALL_SYMBOLS,
        (6..=9, Some(row)) => row.stock(),
        (10, _) => chance.pick(&v::BAD_STOCKS),
        _ => v::stock(chance, look),
    };
    [&opening(b'w', chance, look, firm)[..], &symbol].concat()
}

/// A live row, mostly one that isn't late, and often the last of these, so that others stand before
/// it that a w for it passes over.
fn to_purge<'a>(chance: &mut Chance, look: &Look<'a>) -> Option<Row<'a>> {
    let mut rows = look.live();
    if !chance.one_in(5) {
        rows.retain(|row| !row.late());
    }
    let any = chance.choose(&rows);
    let last = rows.last();
    let row = if chance.one_in(2) { last } else { any };
    row.copied()
}

/// Whether these bytes are a whole w.
pub fn is_purge(entry: &[u8]) -> bool {
    entry.len() == MASS_CANCEL_LEN && entry[0] == b'w'
}

pub fn disable(chance: &mut Chance, look: &Look) -> Vec<u8> {
    let firm = v::port_firm(chance, look);
    opening(b'd', chance, look, firm)
}

/// Mostly lets a blocked firm in again, where there is one.
pub fn enable(chance: &mut Chance, look: &Look) -> Vec<u8> {
    let any = v::port_firm(chance, look);
    let firm = match chance.choose(&look.blocked_firms()) {
        Some(&firm) if !chance.one_in(4) => firm,
        _ => any,
    };
    opening(b'n', chance, look, firm)
}

/// Kind, stamp and firm.
fn opening(kind: u8, chance: &mut Chance, look: &Look, firm: [u8; 4]) -> Vec<u8> {
    let stamp = v::stamp(chance, look).to_be_bytes();
    [&[kind], &stamp[..], &firm].concat()
}
