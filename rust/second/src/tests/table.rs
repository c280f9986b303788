//! The table: fresh ones, and both sides of every sentence about soundness.

use super::kit::*;
use crate::tapes::counts::{recount, table_len};
use crate::{Host, fresh};

fn sound(table: &[u8]) -> bool {
    Host::load(table).is_some()
}

/// The table with these bytes written at a place.
fn with(table: &[u8], at: usize, bytes: &[u8]) -> Vec<u8> {
    let mut table = table.to_vec();
    table[at..at + bytes.len()].copy_from_slice(bytes);
    table
}

#[test]
fn a_fresh_table_is_the_papers() {
    let mut table = vec![0xcc; 64 + 160 + 1];
    assert_eq!(fresh(&mut table, 77, &[*b"A   ", *b"ZZZZ"]), 0);
    let header = [
        [0, 2, 1, 0, 0, 0, 0, 0].as_slice(),
        &0_u64.to_be_bytes(),
        &1_u64.to_be_bytes(),
        &77_u32.to_be_bytes(),
        b"A   ZZZZ",
        &[0; 28],
    ]
    .concat();
    assert_eq!(table, [header.as_slice(), &[0; 161]].concat());
    assert!(sound(&table));
}

#[test]
fn fresh_refuses_a_length_before_settings() {
    for (len, answer) in [
        (0, 10),
        (63, 10),
        (64, 10),
        (65, 10),
        (144, 10), // as long as the old form
        (145, 0),
        (146, 10),
        (64_064, 10),
        (64_163, 10),
        (64_164, 0),
        (64_165, 10),
        (64_245, 10),
    ] {
        let mut table = vec![9; len];
        assert_eq!(fresh(&mut table, 1, &[*b"A   "]), answer, "length {len}");
        if answer != 0 {
            assert_eq!(table, vec![9; len]);
            assert_eq!(fresh(&mut table, 0, &[]), 10);
        }
    }
}

#[test]
fn fresh_refuses_bad_settings() {
    let firm = *b"ABCD";
    let cases: [(u32, Vec<[u8; 4]>, u8); 16] = [
        (0, vec![firm], 3),
        (1, vec![firm], 0),
        (1_000_000, vec![firm], 0),
        (1_000_001, vec![firm], 3),
        (5, vec![], 3),
        (5, vec![firm; 8], 0),
        (5, vec![firm; 9], 3),
        (5, vec![*b"    "], 3),
        (5, vec![*b" ABC"], 3),
        (5, vec![*b"A B "], 3),
        (5, vec![*b"ABc "], 3),
        (5, vec![*b"AB1 "], 3),
        (5, vec![*b"AB\0\0"], 3),
        (5, vec![*b"Z   "], 0),
        (5, vec![*b"@   "], 3),
        (5, vec![firm, *b"[   "], 3),
    ];
    for (threshold, firms, answer) in cases {
        let mut table = vec![9; 145];
        assert_eq!(
            fresh(&mut table, threshold, &firms),
            answer,
            "{threshold} {firms:?}"
        );
        assert!(answer == 0 || table == vec![9; 145]);
    }
}

/// 64 bytes, 80 a record and a bit a record, counted up a record at a time: each eighth begins a byte.
fn lengths() -> Vec<usize> {
    let mut length = 64;
    let next = |record: usize| {
        length += if record.is_multiple_of(8) { 81 } else { 80 };
        length
    };
    (0..800).map(next).collect()
}

#[test]
fn lengths_are_64_and_80_and_a_bit_a_record() {
    let lengths = lengths();
    assert_eq!(lengths[..2], [145, 225]);
    assert_eq!(lengths[7..9], [705, 786]);
    assert_eq!(lengths[799], 64_164);
    assert!((1..=800).map(table_len).eq(lengths.iter().copied()));
    // A fresh table of 800 records has nothing but zeros behind its header.
    let mut long = Desk::before_open(800).table;
    long.resize(table_len(802), 0);
    for len in 0..=long.len() {
        assert_eq!(sound(&long[..len]), lengths.contains(&len), "length {len}");
    }
}

/// Whether the worked table is sound with these bytes written over its header.
fn header_sound(at: usize, bytes: &[u8]) -> bool {
    sound(&with(&Desk::worked().table, at, bytes))
}

#[test]
fn the_headers_bytes_are_judged() {
    for (at, bytes, good) in [
        (0, b"\0".as_slice(), true),
        (0, b"\x02", true),
        (0, b"\x03", false),
        (0, b"\xff", false),
        (1, b"\0", false),
        (1, b"\x01", false), // EF would stand past the count
        (1, b"\x03", false), // a firm of zeros
        (1, b"\x09", false),
        (1, b"\xff", false),
        (2, b"\0", false), // the old form
        (2, b"\x01", true),
        (2, b"\x02", false),
        (2, b"\xff", false),
        (3, b"\x01", true), // two firms, two bits
        (3, b"\x03", true),
        (3, b"\x04", false),
        (3, b"\x07", false),
        (3, b"\x80", false),
        (28, b"a", false),
        (28, b"    ", false),
        (32, b"ABCD", true), // equal firms are legal
        (36, b"A   ", false),
        (36, b"    ", false), // spaces aren't zeros
        (59, b"\x01", false),
        (60, b"\0\0\x01\x90", true), // 400 shares are open
        (60, b"\0\0\x01\x91", false),
        (60, b"\0\0\x01\x8f", false),
        (60, b"\0\0\0\0", false),
        (60, b"\x90\x01\0\0", false),
        (60, b"\x80\0\x01\x90", false),
    ] {
        assert_eq!(header_sound(at, bytes), good, "{bytes:?} at {at}");
    }
}

#[test]
fn the_headers_numbers_are_judged() {
    for (at, number, good) in [
        (4, 0, false), // and yet a bit and shares
        (4, 1, true),
        (4, 2, false), // the second record holds no token
        (4, u32::MAX, false),
        (24, 0, false),
        (24, 1, true),
        (24, 1_000_000, true),
        (24, 1_000_001, false),
    ] {
        assert_eq!(
            header_sound(at, &u32::to_be_bytes(number)),
            good,
            "{number} at {at}"
        );
    }
    for (at, number, good) in [
        (8, 86_399_999_999_999, true),
        (8, 86_400_000_000_000, false),
        (8, u64::MAX, false),
        (16, 0, false),
        (16, 1, true),
        (16, 1_000_000_000_000_000_000, true),
        (16, 1_000_000_000_000_000_001, false),
    ] {
        assert_eq!(
            header_sound(at, &u64::to_be_bytes(number)),
            good,
            "{number} at {at}"
        );
    }
}

#[test]
fn eight_firms_fill_the_places() {
    let mut table = vec![0; 145];
    assert_eq!(fresh(&mut table, 5, &[*b"ABCD"; 8]), 0);
    assert!(sound(&table));
    assert!(!sound(&with(&table, 1, &[7])));
}

/// Each count of firms with each byte: bits may stand for the firms that there are.
#[test]
fn blocks_are_bits_of_the_firms_that_there_are() {
    for count in 1..=8_u32 {
        let mut table = vec![0; 145];
        let firms = vec![*b"ABCD"; count as usize];
        assert_eq!(fresh(&mut table, 5, &firms), 0);
        assert_eq!(table[3], 0, "a fresh table blocks none");
        for byte in 0..=255_u8 {
            let blocked = with(&table, 3, &[byte]);
            assert_eq!(sound(&blocked), u32::from(byte) < 1 << count, "{byte}");
            let image = Host::load(&blocked).map(|host| host.image());
            assert!(image.is_none_or(|image| image == blocked), "{byte}");
        }
    }
}

#[test]
fn all_records_may_be_used() {
    let mut desk = Desk::open(2);
    desk.sent(&O::good("A").entry(2));
    desk.sent(&O::good("B").entry(2));
    assert_eq!(desk.used(), 2);
    assert!(sound(&desk.table));
    assert!(!sound(&with(&desk.table, 4, &3_u32.to_be_bytes())));
}

/// Whether a record of this state, liable, executed and self-matched is sound, counted as it is.
fn shares_sound(state: u8, numbers: [u32; 3]) -> bool {
    let mut desk = Desk::worked();
    let row = desk.row_mut(0);
    row[0] = state;
    for (place, number) in row[16..28].chunks_exact_mut(4).zip(numbers) {
        place.copy_from_slice(&number.to_be_bytes());
    }
    recount(&mut desk.table);
    sound(&desk.table)
}

#[test]
fn a_live_order_has_something_open() {
    for (numbers, good) in [
        ([500, 100, 50], true),
        ([500, 499, 0], true),
        ([500, 500, 0], false),
        ([500, 400, 100], false),
        ([500, 501, 0], false),
        ([0, 0, 0], false),
        ([999_999, 0, 0], true),
        ([999_999, 999_998, 0], true),
        ([1_000_000, 0, 0], false),
        ([500, u32::MAX, 1], false),
        ([500, u32::MAX, 101], false),
        ([500, 1 << 31, 1 << 31], false),
    ] {
        assert_eq!(shares_sound(b'L', numbers), good, "{numbers:?}");
    }
}

#[test]
fn a_dead_order_has_nothing_open() {
    for (numbers, good) in [
        ([500, 400, 100], true),
        ([0, 0, 0], true),
        ([500, 400, 99], false),
        ([500, 400, 101], false),
        ([999_999, 0, 999_999], true),
        ([1_000_000, 1_000_000, 0], false),
        ([0, 1 << 31, 1 << 31], false),
        ([5, u32::MAX, 6], false),
    ] {
        assert_eq!(shares_sound(b'D', numbers), good, "{numbers:?}");
    }
}

#[test]
fn no_other_letter_is_a_state() {
    for state in (0..=255_u8).filter(|state| !b"LD".contains(state)) {
        assert!(!shares_sound(state, [500, 100, 50]), "state {state}");
        assert!(!shares_sound(state, [500, 450, 50]), "state {state}");
    }
}

#[test]
fn tokens_of_all_used_records_are_judged() {
    let mut desk = Desk::worked();
    desk.sent(
        &O {
            shares: 0,
            ..O::good("R")
        }
        .entry(4),
    );
    desk.sent(&cancel(4, "A", 0));
    desk.sent(&O::good("B").entry(4));
    for place in 0..3 {
        for (byte, good) in [(b'-', false), (0, false), (b'z', true), (b' ', true)] {
            for at in [1, 14] {
                let table = with(&desk.table, 64 + 80 * place + at, &[byte]);
                assert_eq!(sound(&table), good, "record {place} byte {byte}");
            }
        }
    }
}

#[test]
fn a_rejected_token_has_zeros_behind_it() {
    let mut desk = Desk::open(1);
    desk.sent(
        &O {
            shares: 0,
            ..O::good("R")
        }
        .entry(4),
    );
    for at in 15..80 {
        assert!(!sound(&with(&desk.table, 64 + at, &[1])), "byte {at}");
    }
}

#[test]
fn nothing_else_is_judged_and_all_of_it_is_carried() {
    let desk = Desk::worked();
    let judged = |at: usize| at < 15 || (16..28).contains(&at);
    for at in (0..80).filter(|&at| !judged(at)) {
        for byte in [0, 1, 0x7f, 0xff] {
            let table = with(&desk.table, 64 + at, &[byte]);
            let image = Host::load(&table).map(|host| host.image());
            assert_eq!(image, Some(table), "byte {at}");
        }
    }
    let unused = with(&desk.table, 64 + 80, &[0xff; 560]);
    assert_eq!(Host::load(&unused).map(|host| host.image()), Some(unused));
}
