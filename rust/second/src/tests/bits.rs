//! The bits behind the records and the sum of open shares: what each entry makes of them, and that a
//! table with any other isn't sound.

use super::kit::*;
use crate::Host;
use crate::tapes::counts::{bits_at, recount};
use crate::tapes::{Chance, sound_table};

/// The bits of up to eight records, and the sum.
fn counts(desk: &Desk) -> (u8, u64) {
    assert_eq!(desk.bits().len(), 1);
    (desk.bits()[0], desk.sum())
}

/// Each entry of the worked order, done after the others, with the bits and the sum that it leaves.
#[test]
fn shares_that_go_are_taken_off_the_sum() {
    let mut desk = Desk::worked();
    assert_eq!(counts(&desk), (1, 400));
    for (entry, bits, sum) in [
        (execution(4, "A", 10), 1, 390),
        (self_match(4, "A", 20), 1, 370),
        (book_cancel(4, "A", 30), 1, 340),
        (modify(4, "A", b'S', 450), 1, 320),
        (modify(4, "A", b'T', 450), 1, 320),
        (cancel(4, "A", 410), 1, 300),
        (priority(4, "A", 7), 1, 300),
        (O::good("B").entry(4), 0b11, 800),
        (replace(4, "A", "C", 140), 0b110, 510),
        (replace(4, "C", "D", 630), 0b1010, 1_000),
        (execution(4, "B", 499), 0b1010, 501),
        (execution(4, "B", 1), 0b1000, 500),
        (system(4, b'E'), 0b1000, 500),
        (mass_cancel(4, b"ABCD", b"        "), 0, 0),
    ] {
        desk.empty();
        assert_eq!(desk.answer(&entry), 0, "{entry:?}");
        assert_eq!(counts(&desk), (bits, sum), "{entry:?}");
    }
}

/// Whatever ends the worked order clears its bit and takes all that was open off the sum; another
/// order's are left.
#[test]
fn whatever_ends_an_order_clears_its_bit() {
    let enter = O {
        cross: b'O',
        ..O::good("A")
    };
    for last in [
        cancel(5, "A", 0),
        execution(5, "A", 400),
        self_match(5, "A", 400),
        book_cancel(5, "A", 400),
        replace(5, "A", "B", 100),
        mass_cancel(5, b"ABCD", b"IBM     "),
        token_only(b'f', 5, "A"),
    ] {
        let mut desk = Desk::worked_as(enter);
        let other = O {
            firm: *b"EF  ",
            ..O::good("other")
        };
        desk.sent(&other.entry(4));
        if last[0] == b'f' {
            desk.sent(&token_only(b'l', 4, "A"));
            assert_eq!(desk.sent(&cancel(4, "A", 0))[0], b'P');
        }
        assert_eq!(counts(&desk), (0b11, 900));
        desk.sent(&last);
        assert_eq!(counts(&desk), (0b10, 500), "{last:?}");
    }
}

/// A rejected token has no bit, and a cross that is done without a cancel leaves its order's.
#[test]
fn a_rejected_token_has_no_bit() {
    let mut desk = Desk::late();
    let bad = O {
        shares: 0,
        ..O::good("R")
    };
    desk.sent(&bad.entry(4));
    assert_eq!(counts(&desk), (1, 400));
    assert_eq!(desk.sent(&replace(4, "A", "S", 500))[23], b'R');
    assert_eq!(counts(&desk), (1, 400));
    desk.sent(&token_only(b'f', 4, "A"));
    assert_eq!(counts(&desk), (1, 400));
    desk.sent(&O::good("B").entry(4));
    assert_eq!((counts(&desk), desk.used()), ((0b1001, 900), 4));
}

/// The first record's is the lowest bit of the first byte, and the ninth's that of the second.
#[test]
fn each_record_has_its_bit() {
    const NAMES: [&str; 19] = [
        "a", "b", "c", "d", "e", "f", "g", "h", "i", "j", "k", "l", "m", "n", "o", "p", "q", "r",
        "s",
    ];
    let mut desk = Desk::open(19);
    for (place, name) in NAMES.into_iter().enumerate() {
        desk.sent(&O::good(name).entry(2));
        let set = (1_u32 << (place + 1)) - 1;
        assert_eq!(desk.bits(), &set.to_le_bytes()[..3]);
        assert_eq!(desk.sum(), 500 * (place as u64 + 1));
    }
    for (place, name) in NAMES.into_iter().enumerate() {
        let mut one = desk.clone();
        one.sent(&cancel(3, name, 0));
        let set = ((1_u32 << 19) - 1) & !(1 << place);
        assert_eq!(one.bits(), &set.to_le_bytes()[..3]);
    }
    // A purge clears them one by one.
    for place in 0..19 {
        desk.sent(&mass_cancel(3, b"ABCD", b"        "));
        let set = (0x7ffff << (place + 1)) & 0x7ffff_u32;
        assert_eq!(desk.bits(), &set.to_le_bytes()[..3]);
    }
    assert_eq!(desk.sum(), 0);
}

/// Any bit that is another one makes a table unsound, a spare one and an unused record's too; and so
/// does any other sum.
#[test]
fn another_bit_or_sum_is_not_sound() {
    let mut chance = Chance::new(51);
    for records in (1..=33).chain([800]) {
        let table = sound_table(&mut chance, records);
        let bits_at = bits_at(&table).unwrap();
        assert_eq!(bits_at, 64 + 80 * records);
        for place in (60..64).chain(bits_at..table.len()) {
            for bit in 0..8 {
                let mut other = table.clone();
                other[place] ^= 1 << bit;
                assert!(Host::load(&other).is_none(), "byte {place} of {records}");
            }
        }
    }
}

/// What stands in an unused record isn't looked at, though it may look like a live order.
#[test]
fn an_unused_record_has_no_bit_and_no_shares() {
    let mut desk = Desk::worked();
    let live = desk.row(0).to_vec();
    desk.row_mut(1).copy_from_slice(&live);
    assert_eq!(desk.recounted(), desk.table);
    assert!(Host::load(&desk.table).is_some());
    let bits_at = bits_at(&desk.table).unwrap();
    desk.table[bits_at] = 0b11;
    assert!(Host::load(&desk.table).is_none());
    desk.table[60..64].copy_from_slice(&800_u32.to_be_bytes());
    assert!(Host::load(&desk.table).is_none());
    desk.table[7] = 2;
    assert!(Host::load(&desk.table).is_some(), "now it is used");
}

/// Two wrong opens don't make a right sum, and as many bits elsewhere aren't the same.
#[test]
fn each_bit_and_share_is_counted_for_itself() {
    let mut desk = Desk::worked();
    desk.sent(&O::good("B").entry(4));
    desk.sent(&cancel(4, "A", 0));
    assert_eq!(counts(&desk), (0b10, 500));
    let mut moved = desk.table.clone();
    let bits_at = bits_at(&moved).unwrap();
    moved[bits_at] = 0b01;
    assert!(Host::load(&moved).is_none());
    // A dead order that has one share more and a live one that has one less.
    let mut shares = desk.clone();
    shares.row_mut(0)[16..20].copy_from_slice(&101_u32.to_be_bytes());
    shares.row_mut(1)[16..20].copy_from_slice(&499_u32.to_be_bytes());
    assert!(Host::load(&shares.table).is_none());
}

/// 800 orders with as many shares as there can be: their sum has room in four bytes.
#[test]
fn the_largest_sum_fits() {
    let mut table = Desk::open(800).table;
    let mut row = Desk::worked().row(0).to_vec();
    row[16..28].copy_from_slice([999_999_u32, 0, 0].map(u32::to_be_bytes).as_flattened());
    for place in 0..800 {
        row[1..15].copy_from_slice(format!("{place:014}").as_bytes());
        table[64 + 80 * place..][..80].copy_from_slice(&row);
    }
    table[4..8].copy_from_slice(&800_u32.to_be_bytes());
    recount(&mut table);
    assert_eq!(number(&table[60..64]), 799_999_200);
    assert_eq!(table[64_064..], [0xff; 100]);
    let image = Host::load(&table).map(|host| host.image());
    assert!(image == Some(table));
}
