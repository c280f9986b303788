//! Damage to tables, in today's form and in the old one: to their lengths, headers and records.

use super::{EDGE_BYTES, counts, near, write};
use crate::tapes::Chance;
use crate::tapes::counts::{old_len, recount, room, table_len};
use crate::tapes::look::number;
use crate::tapes::values::STAMPS_END;

/// 10^18, and the shares of which a chain must stay below.
const REFERENCES_END: u64 = 10_u64.pow(18);
const SHARES_END: u32 = 1_000_000;
/// One record more than a table has.
const TOO_MANY: usize = 801;

/// Damages a table: its length, its header and records, or its bits and sum. After damage to records
/// these are mostly put right, since they would tell of it all alone. It may stay sound; both hosts
/// must then agree on more.
pub fn table(chance: &mut Chance, table: &mut Vec<u8>) {
    match chance.below(12) {
        0 => length(chance, table),
        1..=4 => counts::counts(chance, table),
        _ => {
            let records = room(table.len());
            header_and_records(chance, table, records);
            if !chance.one_in(4) {
                recount(table);
            }
            if chance.one_in(8) {
                counts::counts(chance, table);
            }
        }
    }
}

/// Damages a table of the old form. It may stay sound.
pub fn old_table(chance: &mut Chance, table: &mut Vec<u8>) {
    if chance.one_in(6) {
        return old_length(chance, table);
    }
    let records = table.len().saturating_sub(64) / 80;
    header_and_records(chance, table, records);
}

/// A length that no table, or another table, has.
fn length(chance: &mut Chance, table: &mut Vec<u8>) {
    let (len, records) = (table.len(), room(table.len()));
    let lengths = [
        0,
        63,
        64,
        len.saturating_sub(1),
        len + 1,
        len.saturating_sub(80),
        len + 80,
        old_len(records),
        table_len(records.saturating_sub(1)),
        table_len(records + 1),
        table_len(TOO_MANY),
    ];
    table.resize(chance.pick(&lengths), 0);
    if chance.one_in(2) {
        recount(table);
    }
}

/// The same of the old form. Today's is among them.
fn old_length(chance: &mut Chance, table: &mut Vec<u8>) {
    let len = table.len();
    let records = len.saturating_sub(64) / 80;
    let lengths = [
        0,
        63,
        64,
        len.saturating_sub(1),
        len + 1,
        len.saturating_sub(80),
        len + 80,
        table_len(records),
        old_len(TOO_MANY),
    ];
    table.resize(chance.pick(&lengths), 0);
}

/// Damages header or records, of which there are so many, once or twice.
fn header_and_records(chance: &mut Chance, table: &mut [u8], records: usize) {
    for _ in 0..=chance.below(2) {
        if chance.one_in(2) {
            header(chance, table, records);
        } else {
            record(chance, table, records);
        }
    }
}

fn header(chance: &mut Chance, table: &mut [u8], records: usize) {
    let any = chance.byte();
    let place = chance.place(64);
    let edge = chance.pick(EDGE_BYTES);
    match chance.below(10) {
        0 => write(table, 0, &[chance.pick(&[0, 1, 2, 3, 255])]),
        1 => write(table, 1, &[chance.pick(&[0, 1, 2, 7, 8, 9, 255])]),
        2 => write(table, 4, &near(chance, records as u32).to_be_bytes()),
        3 => write(
            table,
            8,
            &chance
                .pick(&[STAMPS_END - 1, STAMPS_END, u64::MAX])
                .to_be_bytes(),
        ),
        4 => {
            let references = [0, 1, REFERENCES_END, REFERENCES_END + 1, u64::MAX];
            write(table, 16, &chance.pick(&references).to_be_bytes());
        }
        5 => {
            let thresholds = [0, 1, SHARES_END, SHARES_END + 1, u32::MAX];
            write(table, 24, &chance.pick(&thresholds).to_be_bytes());
        }
        6 => write(table, 28 + chance.place(32), &[edge]),
        7 => write(table, chance.pick(&[2, 3, 60, 61, 62, 63]), &[any]),
        8 => blocks(chance, table),
        _ => write(table, place, &[any]),
    }
}

/// Blocks of all firms, the bit right past them, or the highest one.
fn blocks(chance: &mut Chance, table: &mut [u8]) {
    let count = table.get(1).copied().unwrap_or(0).min(8);
    let past = 1_u16 << count;
    write(table, 3, &[chance.pick(&[past - 1, past, 0x80]) as u8]);
}

/// A used record as a rule, since nothing judges the others.
fn record(chance: &mut Chance, table: &mut [u8], records: usize) {
    let used = number(table, 4, 4) as usize;
    let rows = if chance.one_in(10) {
        records
    } else {
        used.min(records)
    };
    let row = 64 + 80 * chance.place(rows);
    let any = chance.byte();
    let shares_at = row + chance.pick(&[16, 20, 24]);
    let numbers = [0, 1, SHARES_END - 1, SHARES_END, 1 << 31, u32::MAX];
    match chance.below(10) {
        0 => write(
            table,
            row,
            &[chance.pick(&[b'L', b'D', b'R', 0, b'l', any])],
        ),
        1 | 2 => write(
            table,
            row + 1 + chance.place(14),
            &[chance.pick(EDGE_BYTES)],
        ),
        3 | 4 => write(table, shares_at, &chance.pick(&numbers).to_be_bytes()),
        5 => nudge(chance, table, shares_at),
        6 => wrap_around(chance, table, row),
        7 | 8 => write(table, row + 15 + chance.place(65), &[any]),
        _ => write(table, row + chance.place(80), &[any]),
    }
}

/// Executed and self-matched whose sum is right only where it is cut to four bytes.
fn wrap_around(chance: &mut Chance, table: &mut [u8], row: usize) {
    let liable = number(table, row + 16, 4) as u32;
    let executed = u32::MAX - chance.below(1 << 31) as u32;
    let wanted = near(chance, liable);
    write(table, row + 20, &executed.to_be_bytes());
    write(
        table,
        row + 24,
        &wanted.wrapping_sub(executed).to_be_bytes(),
    );
}

/// Moves a share number by one, which is all that parts live from dead.
fn nudge(chance: &mut Chance, table: &mut [u8], at: usize) {
    let shares = number(table, at, 4) as u32;
    write(table, at, &near(chance, shares).to_be_bytes());
}
