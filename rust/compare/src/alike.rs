//! How nearly an entry's tokens are those of records that have other ones.

use std::collections::BTreeSet;

use crate::records::used_records;

/// A token's length, and how many of its characters a busy client's tokens share.
const TOKEN_LEN: usize = 14;
const SHARED: usize = 9;

/// What a record with another token has of an entry's token.
#[derive(Clone, Debug, Default, PartialEq, Eq)]
pub struct Alike {
    /// The first nine characters.
    pub in_front: bool,
    /// The last nine.
    pub at_the_end: bool,
    /// All but one: where the one stands.
    pub apart_at: BTreeSet<usize>,
}

impl Alike {
    /// The entry's tokens beside those of the table's used records. Both may be damaged.
    pub fn of(entry: &[u8], table: &[u8]) -> Alike {
        let mut alike = Alike::default();
        for token in tokens_of(entry) {
            for other in used_tokens(table) {
                alike.note(token, other);
            }
        }
        alike
    }

    fn note(&mut self, token: &[u8; TOKEN_LEN], other: &[u8; TOKEN_LEN]) {
        let differs = |&place: &usize| token[place] != other[place];
        let places: Vec<usize> = (0..TOKEN_LEN).filter(differs).collect();
        let (Some(&first), Some(&last)) = (places.first(), places.last()) else {
            return;
        };
        self.in_front |= first >= SHARED;
        self.at_the_end |= last < TOKEN_LEN - SHARED;
        if first == last {
            self.apart_at.insert(first);
        }
    }
}

/// The tokens that an entry names: a Replace two; h, s, w, d and n none.
fn tokens_of(entry: &[u8]) -> impl Iterator<Item = &[u8; TOKEN_LEN]> {
    let places: &[usize] = match entry.first() {
        Some(b'U') => &[9, 23],
        Some(b'O' | b'X' | b'M' | b'e' | b'c' | b'q' | b'p' | b'l' | b'f') => &[9],
        _ => &[],
    };
    let at = |&place: &usize| entry.get(place..)?.first_chunk();
    places.iter().filter_map(at)
}

fn used_tokens(table: &[u8]) -> impl Iterator<Item = &[u8; TOKEN_LEN]> {
    used_records(table).filter_map(|record| record[1..].first_chunk())
}
