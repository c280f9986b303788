//! Messages for an echo: the sixteen kinds, mostly legal, sometimes damaged.

use super::chance::Chance;
use super::damage;
use super::judged::{Field, Judged, of_message};
use super::tokens::new_token;
use super::values::STAMPS_END;

/// Inbound or not, the type, and the whole length.
const KINDS: [(bool, u8, usize); 16] = [
    (true, b'O', 48),
    (true, b'U', 47),
    (true, b'X', 19),
    (true, b'M', 20),
    (false, b'S', 10),
    (false, b'A', 66),
    (false, b'U', 80),
    (false, b'C', 28),
    (false, b'D', 37),
    (false, b'E', 40),
    (false, b'B', 32),
    (false, b'J', 24),
    (false, b'P', 23),
    (false, b'I', 23),
    (false, b'T', 36),
    (false, b'M', 28),
];

/// Whether the caller says inbound, and the message's bytes.
pub fn message(chance: &mut Chance) -> (bool, Vec<u8>) {
    let (inbound, kind, len) = KINDS[chance.place(KINDS.len())];
    let message = made(chance, kind, len, of_message(inbound, kind));
    // Now and then the caller says the wrong one, which tells the twins U and M apart.
    (inbound != chance.one_in(30), message)
}

/// A message of this type and length with these judged fields: mostly legal, sometimes damaged.
pub fn made(chance: &mut Chance, kind: u8, len: usize, fields: &[Field]) -> Vec<u8> {
    let mut message: Vec<u8> = (0..len).map(|_| chance.byte()).collect();
    message[0] = kind;
    for &field in fields {
        fill(chance, &mut message, field);
    }
    match chance.below(8) {
        0 => message = damage::entry(chance, message),
        1 => damage::spoil(chance, &mut message, fields),
        2 => {
            damage::spoil(chance, &mut message, fields);
            message = damage::entry(chance, message);
        }
        _ => {}
    }
    message
}

/// Fills a judged field with what is mostly legal there.
fn fill(chance: &mut Chance, message: &mut [u8], (at, judged): Field) {
    match judged {
        Judged::Stamp => {
            let any = chance.below(STAMPS_END);
            let edge = chance.pick(&[0, STAMPS_END - 1, STAMPS_END, u64::MAX]);
            let stamp = if chance.one_in(10) { edge } else { any };
            message[at..at + 8].copy_from_slice(&stamp.to_be_bytes());
        }
        Judged::Token => message[at..at + 14].copy_from_slice(&new_token(chance)),
        Judged::Letter(legal) => message[at] = chance.pick(legal),
        Judged::Blank => message[at..at + 6].fill(b' '),
        Judged::Zero => message[at..at + 2].fill(0),
        // No message has a price that is judged.
        Judged::Price => {}
    }
}
