//! Messages for the making of entries: a client's four and the purge port's three, mostly legal,
//! sometimes damaged.

use super::chance::Chance;
use super::judged::{of_message, of_request};
use super::messages::made;

/// Whether it is the purge port's, the type, and the whole length.
const KINDS: [(bool, u8, usize); 7] = [
    (true, b'M', 25),
    (true, b'D', 15),
    (true, b'E', 15),
    (false, b'O', 48),
    (false, b'U', 47),
    (false, b'X', 19),
    (false, b'M', 20),
];

/// Whether the caller says that it is the purge port's, and the message's bytes.
pub fn request(chance: &mut Chance) -> (bool, Vec<u8>) {
    let (purge, kind, len) = KINDS[chance.place(KINDS.len())];
    let fields = if purge {
        of_request(kind)
    } else {
        of_message(true, kind)
    };
    let message = made(chance, kind, len, fields);
    // Now and then the caller says the wrong one, which tells the twins M apart.
    (purge != chance.one_in(30), message)
}
