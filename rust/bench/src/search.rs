//! A token looked for in a table as a Rust programmer would by hand: compared from its first byte
//! on, from its last byte backwards, as the language compares arrays, or in words from the tail.
//!
//! Each gives the place of the token's first used record, and the number of used records where none
//! has it. None is inlined, since the proved one is a call into an archive.

use crate::plain::{Record, used};

/// Byte by byte, from the front.
#[inline(never)]
pub fn forwards(table: &[u8], token: &[u8; 14]) -> usize {
    first(used(table), |record| {
        record[1..15].iter().zip(token).all(|(a, b)| a == b)
    })
}

/// Byte by byte, from the tail.
#[inline(never)]
pub fn backwards(table: &[u8], token: &[u8; 14]) -> usize {
    first(used(table), |record| {
        record[1..15].iter().zip(token).rev().all(|(a, b)| a == b)
    })
}

/// All fourteen bytes in two words, whichever differs.
#[inline(never)]
pub fn by_equality(table: &[u8], token: &[u8; 14]) -> usize {
    first(used(table), |record| record[1..15] == *token)
}

/// Its last eight bytes at once, and where these are the same its first eight.
#[inline(never)]
pub fn in_words(table: &[u8], token: &[u8; 14]) -> usize {
    let word = |bytes: &[u8], at: usize| bytes[at..].first_chunk::<8>().copied();
    let (tail, head) = (word(token, 6), word(token, 0));
    first(used(table), |record| {
        word(record, 7) == tail && word(record, 1) == head
    })
}

fn first(used: &[Record], alike: impl Fn(&Record) -> bool) -> usize {
    used.iter().position(alike).unwrap_or(used.len())
}

#[cfg(test)]
mod tests {
    use second::tapes::{Chance, sound_table};

    use super::{backwards, by_equality, forwards, in_words};

    /// Each token of a table, and each with one character changed, wherever that stands.
    #[test]
    fn all_find_the_first_used_record() {
        let mut chance = Chance::new(2);
        let (mut found, mut missed) = (0, 0);
        for _ in 0..500 {
            let table = sound_table(&mut chance, 9);
            let used = usize::from(table[7]);
            let token = |place: usize| table[65 + 80 * place..][..14].try_into().unwrap();
            for place in 0..9 {
                let mut wanted: [u8; 14] = token(place);
                if chance.one_in(2) {
                    wanted[chance.place(14)] ^= 1;
                }
                let first = (0..used).find(|&earlier| token(earlier) == wanted);
                for find in [forwards, backwards, by_equality, in_words] {
                    assert_eq!(find(&table, &wanted), first.unwrap_or(used));
                }
                *(if first.is_some() {
                    &mut found
                } else {
                    &mut missed
                }) += 1;
            }
        }
        assert!(found > 500 && missed > 500, "{found} {missed}");
    }
}
