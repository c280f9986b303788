//! Damage to what a table counts: to its form, to the bits behind its records and to the sum of open
//! shares.

use super::{near, write};
use crate::tapes::Chance;
use crate::tapes::counts::{bits_at, old_form, room, walked};
use crate::tapes::look::number;

/// Where the form and the sum stand.
const FORM: usize = 2;
const SUM: usize = 60;

/// Damages one of them, or all as the old form has them.
pub fn counts(chance: &mut Chance, table: &mut Vec<u8>) {
    match chance.below(12) {
        0 => *table = old_form(table),
        1 | 2 => write(table, FORM, &[chance.pick(&[0, 0, 2, 3, 0x81, 0xff])]),
        3..=6 => bits(chance, table),
        7..=9 => sum(chance, table),
        _ => bit_and_sum(chance, table),
    }
}

/// Damages the bits: one of a used record, of an unused one or of none, two so that as many are set
/// as before, or all.
fn bits(chance: &mut Chance, table: &mut [u8]) {
    let Some(at) = bits_at(table) else {
        return;
    };
    let records = room(table.len());
    let used = (number(table, 4, 4) as usize).min(records);
    let bits = &mut table[at..];
    let all = 8 * bits.len();
    let any = chance.place(all);
    match chance.below(8) {
        0 | 1 => flip(bits, chance.place(used)),
        2 => flip(bits, used + chance.place(records - used)),
        3 | 4 => flip(bits, records + chance.place(all.saturating_sub(records))),
        5 => {
            // Whatever else: one that is set moves to another place.
            let from = (0..all).filter(|&place| is_set(bits, place));
            let from: Vec<usize> = from.collect();
            flip(bits, chance.choose(&from).copied().unwrap_or(any));
            flip(bits, any);
        }
        6 => bits.iter_mut().for_each(|byte| *byte = byte.reverse_bits()),
        _ => bits.fill(chance.pick(&[0, 0xff])),
    }
}

/// Damages the sum: to a neighbour, to that of other shares or to any number.
fn sum(chance: &mut Chance, table: &mut [u8]) {
    let sum = number(table, SUM, 4) as u32;
    let used = number(table, 4, 4) as usize;
    let rows = table.get(64..).unwrap_or(&[]).chunks_exact(80).take(used);
    let liable = rows.map(|row| number(row, 16, 4) as u32);
    let liable = liable.fold(0, u32::wrapping_add);
    let beside = near(chance, sum);
    let any = chance.number() as u32;
    let sums = [
        beside,
        beside,
        0,
        sum.swap_bytes(),
        sum ^ 1 << 31,
        liable,
        any,
    ];
    write(table, SUM, &chance.pick(&sums).to_be_bytes());
}

/// Takes an order's bit and its open shares away together, as if it had died; a dead one lives again
/// and has a share. Neither number tells of the other then.
fn bit_and_sum(chance: &mut Chance, table: &mut [u8]) {
    let walked = walked(table);
    let (Some(at), Some(&open)) = (bits_at(table), chance.choose(&walked)) else {
        return;
    };
    let places = 0..walked.len();
    let alike: Vec<usize> = places.filter(|&place| walked[place] == open).collect();
    let sum = number(table, SUM, 4) as u32;
    let sum = match open {
        Some(open) => sum.wrapping_sub(open),
        None => sum.wrapping_add(1),
    };
    flip(&mut table[at..], chance.pick(&alike));
    write(table, SUM, &sum.to_be_bytes());
}

/// Turns the bit at this place, where there is one.
fn flip(bits: &mut [u8], place: usize) {
    if let Some(byte) = bits.get_mut(place / 8) {
        *byte ^= 1 << (place % 8);
    }
}

fn is_set(bits: &[u8], place: usize) -> bool {
    bits[place / 8] >> (place % 8) & 1 == 1
}
