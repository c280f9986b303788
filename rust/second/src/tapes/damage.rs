//! Damage to tables, lists of stocks, marks, ring lengths and entries, mostly right at what the
//! paper judges.

mod counts;
mod list;
mod table;

pub use list::stocks;
pub use table::{old_table, table};

use super::chance::Chance;
use super::judged::{self, Field, Judged};
use super::values::STAMPS_END;

/// Bytes on both sides of what a token, a firm or a stock may hold.
const EDGE_BYTES: &[u8] = b"\0\x1f !/09:@AZ[`az{\x7f\x80\xff-";
/// Those of them that no token holds.
const BAD_CHARACTERS: &[u8] = b"\0\x1f!/:@[`{\x7f\x80\xff-";
/// Letters of all fields, and some of none: each is legal in one place and bad in the next.
const LETTERS: &[u8] = b"BSTEYNyUQXbse \0ARCLHKJVmkaItdzZDOMnh";
/// Every ring length up to this is judged alike.
const LONGEST_RING: usize = 65_536;
const SHORTEST_RING: usize = 80;

/// The number or a neighbour, around the ends too.
fn near(chance: &mut Chance, number: u32) -> u32 {
    chance.pick(&[number.wrapping_sub(1), number, number.wrapping_add(1)])
}

/// Writes where there is room, and nothing where there is none.
fn write(into: &mut [u8], at: usize, bytes: &[u8]) {
    if let Some(place) = into.get_mut(at..at + bytes.len()) {
        place.copy_from_slice(bytes);
    }
}

/// A ring length that is right: short as a rule, so that rings fill and wrap.
pub fn right_ring_length(chance: &mut Chance) -> usize {
    match chance.below(20) {
        0 => LONGEST_RING,
        1 => SHORTEST_RING + chance.place(LONGEST_RING - SHORTEST_RING + 1),
        2..=6 => SHORTEST_RING,
        _ => SHORTEST_RING + chance.place(200),
    }
}

/// A ring length that is wrong, or just right.
pub fn ring_length(chance: &mut Chance) -> usize {
    let lengths = [
        0,
        1,
        SHORTEST_RING - 1,
        SHORTEST_RING,
        LONGEST_RING,
        LONGEST_RING + 1,
    ];
    chance.pick(&lengths)
}

/// Marks at random and at their edges; they may be right.
pub fn marks(chance: &mut Chance, ring_len: usize, at: &mut usize, held: &mut usize) {
    let edges = [
        0,
        ring_len.saturating_sub(1),
        ring_len,
        ring_len + 1,
        usize::MAX,
    ];
    let (edge_at, edge_held) = (chance.pick(&edges), chance.pick(&edges));
    match chance.below(3) {
        0 => *at = edge_at,
        1 => *held = edge_held,
        _ => (*at, *held) = (edge_at, edge_held),
    }
}

/// Damages an entry anywhere: bytes, length or kind.
pub fn entry(chance: &mut Chance, mut entry: Vec<u8>) -> Vec<u8> {
    for _ in 0..=chance.below(3) {
        let place = chance.place(entry.len());
        let byte = if chance.one_in(2) {
            chance.byte()
        } else {
            chance.pick(EDGE_BYTES)
        };
        if let Some(at_place) = entry.get_mut(place) {
            *at_place = byte;
        }
    }
    if chance.one_in(4) {
        wrong_length(chance, &mut entry);
    }
    entry
}

/// Damages an entry where a reader looks, so that it is mostly answered 2 or 3.
pub fn misread(chance: &mut Chance, mut entry: Vec<u8>) -> Vec<u8> {
    let fields = judged::of_entry(entry.first().copied().unwrap_or(0));
    let any = chance.byte();
    match chance.below(16) {
        0 => write(&mut entry, 0, &[any]),
        1 => write(
            &mut entry,
            0,
            &[chance.pick(b"OUXMecqplfshwdnSACDEBJPITGHWNo\0")],
        ),
        2 => wrong_length(chance, &mut entry),
        3 => {
            // Bad bytes in what has no right length: they mustn't be told.
            spoil(chance, &mut entry, fields);
            wrong_length(chance, &mut entry);
        }
        4 => return self::entry(chance, entry),
        5 | 6 => edge(chance, &mut entry, fields),
        _ => spoil(chance, &mut entry, fields),
    }
    entry
}

/// Makes one of the fields bad, and often more of them: only the smallest offset may be told. Some
/// fall on the same token, which is then bad at several characters.
pub fn spoil(chance: &mut Chance, bytes: &mut [u8], fields: &[Field]) {
    loop {
        if let Some(&field) = chance.choose(fields) {
            spoil_field(chance, bytes, field);
        }
        if chance.one_in(2) {
            return;
        }
    }
}

/// Makes a field bad for sure; a token at one character.
fn spoil_field(chance: &mut Chance, bytes: &mut [u8], (at, judged): Field) {
    match judged {
        Judged::Stamp => {
            let any = STAMPS_END + chance.below(u64::MAX - STAMPS_END);
            let stamps = [STAMPS_END, STAMPS_END + 1, 1 << 63, u64::MAX, any];
            write(bytes, at, &chance.pick(&stamps).to_be_bytes());
        }
        Judged::Token => {
            let character = at + chance.place(14);
            write(bytes, character, &[chance.pick(BAD_CHARACTERS)]);
        }
        Judged::Letter(legal) => {
            let mut bad = LETTERS.to_vec();
            bad.push(0xff);
            bad.retain(|letter| !legal.contains(letter));
            write(bytes, at, &[chance.pick(&bad)]);
        }
        Judged::Price => {
            let prices = [0, 1_999_999_901, 2_147_483_647, u32::MAX];
            write(bytes, at, &chance.pick(&prices).to_be_bytes());
        }
        Judged::Blank => {
            let character = at + chance.place(6);
            write(bytes, character, &[chance.pick(b"\0A0z\x1f!\xa0\xff")]);
            if chance.one_in(4) {
                write(bytes, at, &chance.pick(&[[0; 6], *b"ACCT  ", *b"ACCT01"]));
            }
        }
        Judged::Zero => {
            let lengths: [u16; 6] = [1, 2, 255, 256, 1 << 15, u16::MAX];
            write(bytes, at, &chance.pick(&lengths).to_be_bytes());
        }
    }
}

/// Puts a byte into a token or a letter's place that is just legal there, or just not.
fn edge(chance: &mut Chance, bytes: &mut [u8], fields: &[Field]) {
    match chance.choose(fields) {
        Some((at, Judged::Token)) => {
            let character = at + chance.place(14);
            write(bytes, character, &[chance.pick(EDGE_BYTES)]);
        }
        Some((at, Judged::Letter(_))) => write(bytes, *at, &[chance.pick(LETTERS)]),
        // The others have edges of their own where they are made.
        Some(_) | None => {}
    }
}

/// Cuts the entry or lengthens it.
fn wrong_length(chance: &mut Chance, entry: &mut Vec<u8>) {
    let len = match chance.below(5) {
        0 => 0,
        1 => entry.len().saturating_sub(1),
        2 => entry.len() + 1,
        3 => entry.len() + chance.place(60),
        _ => chance.place(entry.len()),
    };
    entry.resize(len, b' ');
}
