//! Entries that a client sends: O U X M.

use super::chance::Chance;
use super::look::{Look, Row};
use super::tokens::{token_to_name, token_to_store};
use super::values as v;

pub fn enter(chance: &mut Chance, look: &Look) -> Vec<u8> {
    let shares = v::shares_to_enter(chance, look);
    let (time_in_force, minimum) = v::time_and_minimum(chance, shares);
    let mut entry = [
        b"O".as_slice(),
        &v::stamp(chance, look).to_be_bytes(),
        &token_to_store(chance, look),
        &[chance.pick(b"BSTE")],
        &shares.to_be_bytes(),
        &v::stock(chance, look),
        &v::price(chance).to_be_bytes(),
        &time_in_force.to_be_bytes(),
        &v::firm(chance, look),
        &[v::display(chance), v::capacity(chance), chance.pick(b"YNy")],
        &minimum.to_be_bytes(),
        &[v::cross(chance)],
    ]
    .concat();
    if chance.one_in(12) {
        add_faults(chance, look, &mut entry);
    }
    entry
}

/// Several faults at once, since only the first in the paper's order may be told.
fn add_faults(chance: &mut Chance, look: &Look, entry: &mut [u8]) {
    let threshold = look.threshold().to_be_bytes();
    let faults: [(usize, &[u8]); 7] = [
        (24, &threshold),
        (28, b"IB M    "),
        (36, &[0; 4]),
        (44, b"ZZZZ"),
        (48, b"Z"),
        (51, &[0xff; 4]),
        (55, b"Z"),
    ];
    for (at, bytes) in faults {
        if chance.one_in(3) {
            entry[at..at + bytes.len()].copy_from_slice(bytes);
        }
    }
}

pub fn replace(chance: &mut Chance, look: &Look) -> Vec<u8> {
    let row = to_replace(chance, look);
    let existing = token_to_name(chance, look, row);
    let replacement = if chance.one_in(25) {
        existing
    } else {
        token_to_store(chance, look)
    };
    let shares = shares_to_replace(chance, look, row);
    let new_open = shares.saturating_sub(row.map_or(0, Row::spent));
    let (time_in_force, minimum) = v::time_and_minimum(chance, new_open);
    [
        b"U".as_slice(),
        &v::stamp(chance, look).to_be_bytes(),
        &existing,
        &replacement,
        &shares.to_be_bytes(),
        &v::price(chance).to_be_bytes(),
        &time_in_force.to_be_bytes(),
        &[v::display(chance), chance.pick(b"YNy")],
        &minimum.to_be_bytes(),
    ]
    .concat()
}

/// A row as others want it; where some are in a halted stock, one of those half the time.
fn to_replace<'a>(chance: &mut Chance, look: &Look<'a>) -> Option<Row<'a>> {
    match chance.choose(&look.live_and_halted()) {
        Some(&row) if chance.one_in(2) => Some(row),
        _ => wanted(chance, look.live()),
    }
}

/// Often a total that replaces the order, so that chains grow; often one just too low.
fn shares_to_replace(chance: &mut Chance, look: &Look, row: Option<Row>) -> u32 {
    let spent = row.map_or(0, Row::spent);
    let room = look.threshold().saturating_sub(spent).saturating_sub(1);
    let any_spent = chance.below(u64::from(spent) + 1) as u32;
    match (chance.below(7), row) {
        (0 | 1, _) => spent.saturating_add(1 + chance.below(u64::from(room)) as u32),
        (2, Some(row)) => row.liable(),
        (3, _) => chance.pick(&[any_spent, spent, spent.saturating_add(1)]),
        _ => v::shares_about(chance, look, row),
    }
}

pub fn cancel(chance: &mut Chance, look: &Look) -> Vec<u8> {
    let row = to_cancel(chance, look);
    let size = v::intended_size(chance, look, row);
    [
        b"X".as_slice(),
        &v::stamp(chance, look).to_be_bytes(),
        &token_to_name(chance, look, row),
        &size.to_be_bytes(),
    ]
    .concat()
}

/// A row as others want it; where some have self-matched shares, one of those half the time.
fn to_cancel<'a>(chance: &mut Chance, look: &Look<'a>) -> Option<Row<'a>> {
    let self_matched = look.live_and_self_matched();
    let from = if !self_matched.is_empty() && chance.one_in(2) {
        self_matched
    } else {
        look.live()
    };
    wanted(chance, from)
}

pub fn modify(chance: &mut Chance, look: &Look) -> Vec<u8> {
    // Any live row, since a late one is only ever ignored.
    let row = chance.choose(&look.live()).copied();
    let same = row.map(Row::side).filter(|side| b"BSTE".contains(side));
    let side = match (chance.below(5), same) {
        (0..=2, Some(side)) => side,
        (3, _) => chance.pick(b"STE"),
        _ => chance.pick(b"BSTE"),
    };
    let shares = match row {
        Some(row) if chance.one_in(2) => lower_total(chance, row),
        _ => v::shares_about(chance, look, row),
    };
    [
        b"M".as_slice(),
        &v::stamp(chance, look).to_be_bytes(),
        &token_to_name(chance, look, row),
        &[side],
        &shares.to_be_bytes(),
    ]
    .concat()
}

/// A total above what is spent and not above liable.
fn lower_total(chance: &mut Chance, row: Row) -> u32 {
    let above_spent = 1 + chance.below(u64::from(row.open())) as u32;
    row.spent().saturating_add(above_spent)
}

/// One of the rows; while there are late ones, one of them at least a third of the time.
fn wanted<'a>(chance: &mut Chance, rows: Vec<Row<'a>>) -> Option<Row<'a>> {
    let late: Vec<Row> = rows.iter().copied().filter(|row| row.late()).collect();
    let from = if !late.is_empty() && chance.one_in(3) {
        late
    } else {
        rows
    };
    chance.choose(&from).copied()
}
