//! Damage to lists of stocks: their length, their order and their states.

use super::write;
use crate::tapes::Chance;
use crate::tapes::lists::{MOST_PLACES, lengthened};

/// A place's bytes, and where its state stands.
const PLACE_LEN: usize = 9;
const STATE_AT: usize = 8;
/// Letters that stand near the two states, or that other fields have.
const STATES: &[u8] = b"THth\0 SUGI\xd4\xc8";

/// Damages a list once or twice. It may stay good; both hosts must then agree on more.
pub fn stocks(chance: &mut Chance, list: &mut Vec<u8>) {
    for _ in 0..=chance.below(2) {
        match chance.below(10) {
            0..=2 => length(chance, list),
            3..=4 => state(chance, list),
            _ => order(chance, list),
        }
    }
}

/// A length that no list, or another list, has. A list that is too long is otherwise good.
fn length(chance: &mut Chance, list: &mut Vec<u8>) {
    let len = list.len();
    if chance.one_in(24) {
        *list = lengthened(chance, list, MOST_PLACES + 1);
        return;
    }
    let any = chance.place(len + 1);
    let other = chance.pick(&[1, 8, len.saturating_sub(1), len + 1, len + 8, len + 9, any]);
    list.resize(other, b'T');
}

/// Another letter at a state.
fn state(chance: &mut Chance, list: &mut [u8]) {
    let any = chance.byte();
    let letter = chance.pick(STATES);
    let letter = if chance.one_in(4) { any } else { letter };
    let place = chance.place(list.len() / PLACE_LEN);
    write(list, PLACE_LEN * place + STATE_AT, &[letter]);
}

/// Two neighbours out of order, equal, or told apart by one byte.
fn order(chance: &mut Chance, list: &mut [u8]) {
    let pairs = (list.len() / PLACE_LEN).saturating_sub(1);
    let at = PLACE_LEN * chance.place(pairs);
    let any = chance.byte();
    let byte = chance.pick(&[0, 3, STATE_AT - 1, STATE_AT - 1]);
    let Some(two) = list.get_mut(at..at + 2 * PLACE_LEN) else {
        return write(list, chance.place(STATE_AT), &[any]);
    };
    let (one, next) = two.split_at_mut(PLACE_LEN);
    match chance.below(6) {
        0 => one.swap_with_slice(next),
        1 | 2 => next[..STATE_AT].copy_from_slice(&one[..STATE_AT]),
        3 => {
            // Equal but for one byte: a step up is good, and a step down or across 127 is told.
            next[..STATE_AT].copy_from_slice(&one[..STATE_AT]);
            next[byte] = chance.pick(&[
                one[byte].wrapping_add(1),
                one[byte].wrapping_sub(1),
                one[byte] ^ 0x80,
            ]);
        }
        4 => next[byte] ^= 0x80,
        _ => next[byte] = any,
    }
}
