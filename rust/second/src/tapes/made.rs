//! Tables made by hand: sound, but in states that no tape would reach.

use super::chance::Chance;
use super::counts::{recount, table_len};
use super::look::Look;
use super::tokens::{near_token, new_token};
use super::values::{GOOD_STOCKS, STAMPS_END};

/// 10^18, the highest next reference.
const REFERENCES_END: u64 = 10_u64.pow(18);

/// A sound table of so many records (1 to 800), with whatever the paper leaves unjudged at random:
/// unused records, byte 79, high flag bits, equal tokens, odd sides, crosses, firms and stocks.
pub fn sound_table(chance: &mut Chance, records: usize) -> Vec<u8> {
    let used = match chance.below(5) {
        0 => 0,
        1 => records,
        _ => chance.place(records + 1),
    };
    let mut table = header(chance, used);
    let firms = Look::at(&table, &[]).firms();
    let mut stored = Vec::new();
    for place in 0..records {
        let row = if place < used {
            let token = token(chance, &stored);
            stored.push(token);
            used_record(chance, token, &firms)
        } else {
            unused_record(chance, &firms)
        };
        table.extend(row);
    }
    table.resize(table_len(records), 0);
    recount(&mut table);
    table
}

fn header(chance: &mut Chance, used: usize) -> Vec<u8> {
    let count = 1 + chance.place(8);
    let mut firms = [[0; 4]; 8];
    for firm in &mut firms[..count] {
        *firm = chance.pick(&[*b"A   ", *b"AB  ", *b"ABC ", *b"ABCD", *b"ZZZZ", *b"QX  "]);
    }
    let any_stamp = chance.below(STAMPS_END);
    let any_reference = 1 + chance.below(REFERENCES_END);
    let stamp = chance.weighted(&[(3, 0), (1, STAMPS_END - 1), (6, any_stamp)]);
    let reference = chance.weighted(&[
        (2, 1),
        (1, REFERENCES_END - 2),
        (1, REFERENCES_END - 1),
        (2, REFERENCES_END),
        (4, any_reference),
    ]);
    let any_threshold = 1 + chance.below(1_000_000) as u32;
    let threshold =
        chance.weighted(&[(3, 1_000_000), (1, 1), (1, 2), (1, 600), (4, any_threshold)]);
    let day = chance.weighted(&[(1, 0), (6, 1), (2, 2)]);
    let any_blocks = chance.byte() & (0xff >> (8 - count));
    let blocks = chance.weighted(&[(3, 0), (1, any_blocks)]);
    [
        [day, count as u8, 1, blocks].as_slice(),
        &(used as u32).to_be_bytes(),
        &stamp.to_be_bytes(),
        &reference.to_be_bytes(),
        &threshold.to_be_bytes(),
        &firms.concat(),
        &[0; 4],
    ]
    .concat()
}

/// Mostly a new token; now and then one that an earlier row has, or has nearly.
fn token(chance: &mut Chance, stored: &[[u8; 14]]) -> [u8; 14] {
    match (chance.below(10), chance.choose(stored)) {
        (0, Some(&token)) => token,
        (1 | 2, Some(&token)) => near_token(chance, token),
        _ => new_token(chance),
    }
}

fn used_record(chance: &mut Chance, token: [u8; 14], firms: &[[u8; 4]]) -> Vec<u8> {
    let state = chance.weighted(&[(6, b'L'), (3, b'D'), (1, b'R')]);
    if state == b'R' {
        return [[state].as_slice(), &token, &[0; 65]].concat();
    }
    let (liable, executed, self_matched) = share_numbers(chance, state == b'L');
    let mut row: Vec<u8> = (0..80).map(|_| chance.byte()).collect();
    row[0] = state;
    row[1..15].copy_from_slice(&token);
    row[15] = chance.weighted(&[(3, b'B'), (3, b'S'), (3, b'T'), (3, b'E'), (1, row[15])]);
    row[16..20].copy_from_slice(&liable.to_be_bytes());
    row[20..24].copy_from_slice(&executed.to_be_bytes());
    row[24..28].copy_from_slice(&self_matched.to_be_bytes());
    if !chance.one_in(3) {
        row[28..36].copy_from_slice(&chance.pick(&GOOD_STOCKS));
    }
    if !chance.one_in(5) {
        row[44..48].copy_from_slice(&chance.pick(firms));
    }
    row[55] = chance.weighted(&[(4, b'N'), (4, b'O'), (4, b'C'), (3, row[55])]);
    let plain_flags = row[64] & 7;
    row[64] = chance.weighted(&[(3, 0), (1, 1), (4, plain_flags), (1, row[64])]);
    if chance.one_in(2) {
        row[79] = 0;
    }
    row
}

/// Liable, executed and self-matched of a live or a dead order, up to 999,999.
fn share_numbers(chance: &mut Chance, live: bool) -> (u32, u32, u32) {
    let any_open = 1 + chance.below(999_999) as u32;
    let open = match chance.below(4) {
        _ if !live => 0,
        0 => 1,
        1 => 500,
        _ => any_open,
    };
    let room = 999_999 - open;
    let any_spent = chance.below(u64::from(room) + 1) as u32;
    let spent = chance.weighted(&[(2, 0), (1, room), (3, any_spent)]);
    let any_executed = chance.below(u64::from(spent) + 1) as u32;
    let executed = chance.weighted(&[(1, 0), (2, spent), (3, any_executed)]);
    (open + spent, executed, spent - executed)
}

/// Anything may stand in an unused record, also what looks like a used one.
fn unused_record(chance: &mut Chance, firms: &[[u8; 4]]) -> Vec<u8> {
    match chance.below(8) {
        0..=3 => vec![0; 80],
        4 => {
            let token = new_token(chance);
            used_record(chance, token, firms)
        }
        _ => (0..80).map(|_| chance.byte()).collect(),
    }
}

/// Settings for a fresh call: a threshold and firms, good or at their edges.
pub fn settings(chance: &mut Chance) -> (u32, Vec<[u8; 4]>) {
    let any_threshold = 1 + chance.below(1_000_000) as u32;
    let edges = [0, 1, 999_999, 1_000_000, 1_000_001, u32::MAX];
    let threshold = match chance.below(3) {
        0 => chance.pick(&edges),
        _ => any_threshold,
    };
    let count = chance.place(10);
    let firm = |chance: &mut Chance| match chance.below(25) {
        0 => chance.pick(&[
            *b"    ", *b" A  ", *b"A A ", *b"ABcD", *b"A@  ", *b"A[  ", [0; 4],
        ]),
        _ => chance.pick(&[*b"A   ", *b"ZZ  ", *b"ABC ", *b"ABCD"]),
    };
    (threshold, (0..count).map(|_| firm(chance)).collect())
}
