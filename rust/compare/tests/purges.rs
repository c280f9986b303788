//! The purge through the archive: a w finds its next order behind every pattern of dead orders and of
//! live ones that it doesn't mean, within a byte of bits and across bytes, beside the second host.

use compare::{Desk, Host, Proved, Second};
use pilaqsevi::Marks;
use second::tapes::counts::{recount, table_len};

/// What a record is to the w: dead, or live and meant or not.
const DEAD: usize = 0;
const MEANT: usize = 1;
const NOT_MEANT: usize = 2;
/// The answers to it.
const DONE: u8 = 0;
const IGNORED: u8 = 1;

/// A desk with these records. What isn't meant is late or another firm's in turn.
fn desk(records: &[usize]) -> Desk {
    let mut table = vec![0; table_len(records.len())];
    assert_eq!(Second.fresh(&mut table, 9, &[*b"ABCD", *b"E   "]), DONE);
    table[4..8].copy_from_slice(&(records.len() as u32).to_be_bytes());
    for (place, &what) in records.iter().enumerate() {
        let record = &mut table[64 + 80 * place..][..80];
        record[0] = if what == DEAD { b'D' } else { b'L' };
        record[1..15].copy_from_slice(format!("{place:014}").as_bytes());
        record[19] = u8::from(what != DEAD);
        record[44..48].copy_from_slice(b"ABCD");
        match (what, place % 2) {
            (NOT_MEANT, 0) => record[64] = 1,
            (NOT_MEANT, _) => record[44..48].copy_from_slice(b"E   "),
            _ => {}
        }
    }
    recount(&mut table);
    Desk {
        table,
        ring: vec![0; 80],
        ..Desk::default()
    }
}

/// The places of the orders that w after w takes, until one is ignored; both hosts leave the same.
fn purged(proved: &Proved, mut desk: Desk) -> Vec<usize> {
    let w = [b"w", &[0; 8][..], b"ABCD        "].concat();
    let mut places = Vec::new();
    loop {
        let mut right = desk.clone();
        let told = desk.step(proved, &w);
        assert_eq!(told, right.step(&Second, &w));
        assert!(desk == right);
        if told.answer == IGNORED {
            return places;
        }
        assert_eq!(told.answer, DONE);
        let token = std::str::from_utf8(&desk.ring[9..23]).unwrap();
        places.push(token.parse().unwrap());
        desk.marks = Marks::default();
    }
}

/// The places of the meant ones, in order.
fn meant(records: &[usize]) -> Vec<usize> {
    let places = 0..records.len();
    places.filter(|&place| records[place] == MEANT).collect()
}

/// Of nineteen records those that stand first or last in a byte of bits, or next to that, are any.
#[test]
#[cfg_attr(not(archive), ignore = "no archive of the proved functions is linked")]
fn every_pattern_is_purged_in_order() {
    let proved = Proved::linked().unwrap();
    for pattern in 0..3_usize.pow(9) {
        let digit = |place: u32| pattern / 3_usize.pow(place) % 3;
        let mut records = [DEAD; 19];
        for (place, at) in [0, 6, 7, 8, 9, 15, 16, 17, 18].into_iter().enumerate() {
            records[at] = digit(place as u32);
        }
        assert_eq!(purged(&proved, desk(&records)), meant(&records));
    }
}

/// One order in the longest table, at the ends of bytes and of longer words, and many at once.
#[test]
#[cfg_attr(not(archive), ignore = "no archive of the proved functions is linked")]
fn one_order_is_found_in_the_longest_table() {
    let proved = Proved::linked().unwrap();
    for others in [DEAD, NOT_MEANT] {
        for place in (0..800).filter(|place| matches!(place % 64, 0 | 7 | 8 | 63) || *place == 799)
        {
            let mut records = [others; 800];
            records[place] = MEANT;
            assert_eq!(purged(&proved, desk(&records)), [place]);
        }
    }
    let all = [MEANT; 64];
    assert_eq!(purged(&proved, desk(&all)), meant(&all));
}
