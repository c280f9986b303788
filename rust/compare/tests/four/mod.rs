//! A table of four records, and what becomes of each byte of it when that is damaged in every way.

use std::fmt::Write;

use compare::{Host, Second};
use second::tapes::counts::{recount, table_len};

/// The last stamp of a day: no legal last stamp is above it.
pub const LAST_STAMP: u64 = 86_399_999_999_999;
/// Its parts: what each is called, where it begins, its bytes, and the record whose token is looked for
/// once one of them is damaged.
pub const PARTS: [(&str, usize, usize, usize); 4] = [
    ("header", 0, 64, 2),
    ("live", 64, 80, 0),
    ("dead", 144, 80, 1),
    ("rejected", 224, 80, 2),
];

/// The table: a live order, a dead one, a rejected token, and a record that is unused.
pub fn table() -> Vec<u8> {
    let mut table = vec![0; table_len(4)];
    assert_eq!(
        Second.fresh(&mut table, 1_000_000, &[*b"ABCD", *b"E   "]),
        0
    );
    for (place, state, executed) in [(0, b'L', 40), (1, b'D', 100), (2, b'R', 0)] {
        let record = &mut table[64 + 80 * place..][..80];
        record[0] = state;
        record[1..15].copy_from_slice(&token(place));
        if state != b'R' {
            (record[15], record[19], record[23]) = (b'B', 100, executed);
        }
    }
    table[7] = 3;
    recount(&mut table);
    table
}

fn token(place: usize) -> [u8; 14] {
    let mut token = [b'T'; 14];
    token[13] += 1 + place as u8;
    token
}

/// An Enter of a record's token. Of a table that isn't sound the answer is 10, and of a sound one
/// it is 1 where the token is found and another where it isn't.
pub fn enter(place: usize) -> Vec<u8> {
    let stamp = LAST_STAMP.to_be_bytes();
    [
        b"O".as_slice(),
        &stamp,
        &token(place),
        b"B\0\0\0\x01IBM     \0\0\0\x01\0\0\0\0ABCDYPN\0\0\0\0N",
    ]
    .concat()
}

/// For each byte of these parts, how many of the 255 other values leave the table sound, and how many
/// of those leave the record's token where it was. An answer is what the Enter comes to once the byte
/// at a place has this value.
pub fn listing(
    whole: &[u8],
    parts: &[(&str, usize, usize, usize)],
    mut answer: impl FnMut(usize, u8, &[u8]) -> u8,
) -> String {
    let mut listing = String::from("sound and found of 255 values a byte\n");
    for &(part, at, bytes, record) in parts {
        listing += part;
        for (place, right) in whole.iter().enumerate().skip(at).take(bytes) {
            let others = (1..=255).map(|by| right.wrapping_add(by));
            let entry = enter(record);
            let answers: Vec<u8> = others.map(|byte| answer(place, byte, &entry)).collect();
            let sound = answers.iter().filter(|&&answer| answer != 10).count();
            let found = answers.iter().filter(|&&answer| answer == 1).count();
            if (place - at) % 8 == 0 {
                let _ = write!(listing, "\n{place}:");
            }
            let _ = write!(listing, " {sound}/{found}");
        }
        listing.push('\n');
    }
    listing
}
