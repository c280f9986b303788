//! Tokens: new ones, of which a busy client counts many, and ones that are nearly a used one.

use super::chance::Chance;
use super::look::{Look, Row};

/// Characters that a token may hold.
const CHARACTERS: &[u8] = b"ABCXYZabcxyz0189 ";
/// What all tokens of a busy client share; in the other five characters it counts.
const CLIENT: &[u8; 9] = b"CLIENT007";

/// A token that is almost surely unused: of random characters, or a client's next number, which
/// stands at the end or in front; now and then all spaces.
pub fn new_token(chance: &mut Chance) -> [u8; 14] {
    let mut token = std::array::from_fn(|_| chance.pick(CHARACTERS));
    match chance.below(150) {
        0 => token = [b' '; 14],
        1..=40 => {
            token[..9].copy_from_slice(CLIENT);
            token[9..].copy_from_slice(&count(chance));
        }
        41..=60 => {
            token[..5].copy_from_slice(&count(chance));
            token[5..].copy_from_slice(CLIENT);
        }
        _ => {}
    }
    token
}

/// A token that a used one is nearly: it differs in one character, wherever that stands, or in its
/// last five or its first five.
pub fn near_token(chance: &mut Chance, mut token: [u8; 14]) -> [u8; 14] {
    match chance.below(4) {
        0 => token[9..].copy_from_slice(&count(chance)),
        1 => token[..5].copy_from_slice(&count(chance)),
        _ => token[chance.place(14)] = chance.pick(CHARACTERS),
    }
    token
}

/// Five digits.
fn count(chance: &mut Chance) -> [u8; 5] {
    let mut left = chance.below(100_000);
    let mut digits = [b'0'; 5];
    for digit in digits.iter_mut().rev() {
        *digit += (left % 10) as u8;
        left /= 10;
    }
    digits
}

/// A token for a new order: mostly a new one.
pub fn token_to_store(chance: &mut Chance, look: &Look) -> [u8; 14] {
    let used = chance.choose(&look.records()).map(|row| row.token());
    match (chance.below(100), used) {
        (0..=7, Some(token)) => token,
        (8..=24, Some(token)) => near_token(chance, token),
        _ => new_token(chance),
    }
}

/// A token to act on: mostly the wanted row's.
pub fn token_to_name(chance: &mut Chance, look: &Look, wanted: Option<Row>) -> [u8; 14] {
    let used = chance.choose(&look.records()).map(|row| row.token());
    match (chance.below(100), wanted, used) {
        (0..=4, _, Some(token)) => token,
        (5..=9, _, Some(token)) => near_token(chance, token),
        (10, _, _) => new_token(chance),
        (_, Some(row), _) => row.token(),
        (_, None, Some(token)) => token,
        (_, None, None) => new_token(chance),
    }
}
