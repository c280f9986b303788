//! d and n: the bits that they set and clear, and what a blocked firm may still do.

use super::kit::*;
use crate::fresh;

const ABCD: &[u8; 4] = b"ABCD";
const EF: &[u8; 4] = b"EF  ";

/// An open desk with these firms.
fn with_firms(firms: &[[u8; 4]]) -> Desk {
    let mut desk = Desk::open(4);
    let day = desk.table[0];
    assert_eq!(fresh(&mut desk.table, 1_000_000, firms), 0);
    desk.table[0] = day;
    desk
}

/// Eight firms, all different.
fn eight() -> [[u8; 4]; 8] {
    std::array::from_fn(|place| [b'A' + place as u8, b'X', b' ', b' '])
}

#[test]
fn each_firm_has_its_bit() {
    for (place, firm) in eight().iter().enumerate() {
        for others in [0, 0xff, 0b0101_0101, 0b1010_1010] {
            let mut desk = with_firms(&eight());
            desk.table[3] = others;
            let mut table = desk.table.clone();
            for (kind, bits) in [(b'd', others | 1 << place), (b'n', others & !(1 << place))] {
                assert_eq!(desk.sent(&firm_only(kind, 5, firm)), b"");
                table[3] = bits;
                table[8..16].copy_from_slice(&5_u64.to_be_bytes());
                assert_eq!(desk.table, table, "nothing else changes");
            }
        }
    }
}

#[test]
fn setting_what_is_set_is_done() {
    for kind in *b"dn" {
        let mut desk = Desk::open(1);
        for stamp in [5, 6] {
            assert_eq!(desk.sent(&firm_only(kind, stamp, EF)), b"");
            assert_eq!(desk.blocks(), if kind == b'd' { 2 } else { 0 });
        }
        assert_eq!(desk.answer(&firm_only(kind, 5, EF)), 4, "the stamp moved");
    }
}

#[test]
fn a_firm_listed_twice_uses_its_first_place() {
    let mut desk = with_firms(&[*EF, *ABCD, *ABCD, *EF]);
    desk.sent(&firm_only(b'd', 3, ABCD));
    assert_eq!(desk.blocks(), 0b0010);
    desk.sent(&firm_only(b'd', 3, EF));
    assert_eq!(desk.blocks(), 0b0011);
    desk.table[3] = 0b1111;
    desk.sent(&firm_only(b'n', 3, ABCD));
    assert_eq!(desk.blocks(), 0b1101);
    assert_eq!(desk.sent(&O::good("A").entry(3))[0], b'A');
    desk.sent(&firm_only(b'n', 3, EF));
    assert_eq!(desk.blocks(), 0b1100, "and what is left blocks nobody");
    for firm in [*EF, *b"    "] {
        let name = if firm == *EF { "B" } else { "C" };
        let order = O::good(name);
        assert_eq!(desk.sent(&O { firm, ..order }.entry(3))[0], b'A');
    }
}

#[test]
fn a_block_asks_for_no_open_day() {
    for day in 0..3 {
        let mut desk = Desk::open(1);
        desk.table[0] = day;
        desk.sent(&firm_only(b'd', 3, EF));
        assert_eq!(desk.blocks(), 2);
        desk.sent(&firm_only(b'n', 3, EF));
        assert_eq!(desk.blocks(), 0);
    }
}

#[test]
fn a_block_needs_neither_room_nor_a_record() {
    let mut desk = Desk::open(1);
    desk.sent(&O::good("A").entry(2));
    let mut desk = desk.with_ring(80).with_free(0);
    desk.table[16..24].copy_from_slice(&1_000_000_000_000_000_000_u64.to_be_bytes());
    assert_eq!(desk.answer(&firm_only(b'd', 3, ABCD)), 0);
    assert_eq!((desk.blocks(), desk.held), (1, 80));
}

#[test]
fn a_blocked_firms_new_order_is_rejected_and_uses_up_its_token() {
    let mut desk = Desk::open(4);
    desk.sent(&firm_only(b'd', 3, ABCD));
    assert_eq!(desk.sent(&O::good("A").entry(3)), rejected(3, "A", b'a'));
    assert_eq!((desk.used(), desk.next_reference()), (1, 1));
    assert_eq!(desk.row(0)[..15], [b"R", &token("A")[..]].concat());
    let order = O::good("B");
    let other = O { firm: *EF, ..order };
    assert_eq!(desk.sent(&other.entry(3))[0], b'A', "another firm's isn't");
    desk.sent(&firm_only(b'n', 4, ABCD));
    assert_eq!(desk.answer(&O::good("A").entry(4)), 1);
    assert_eq!(desk.sent(&O::good("C").entry(4))[0], b'A');
}

#[test]
fn a_blank_firm_is_judged_as_the_default() {
    let blank = |name| O {
        firm: *b"    ",
        ..O::good(name)
    };
    let mut desk = Desk::open(4);
    desk.sent(&firm_only(b'd', 3, EF));
    assert_eq!(desk.sent(&blank("A").entry(3))[0], b'A');
    desk.sent(&firm_only(b'd', 3, ABCD));
    desk.sent(&firm_only(b'n', 3, EF));
    assert_eq!(desk.sent(&blank("B").entry(3)), rejected(3, "B", b'a'));
}

/// C and L come before, S and all others behind; an unlisted firm has no bit.
#[test]
fn blocked_is_asked_right_after_the_firm() {
    let bad = O {
        stock: *b"        ",
        shares: 0,
        ..O::good("A")
    };
    let unlisted = O {
        firm: *b"NONE",
        ..bad
    };
    let mut desk = Desk::open(4);
    desk.table[3] = 3;
    assert_eq!(desk.clone().sent(&bad.entry(3)), rejected(3, "A", b'a'));
    assert_eq!(
        desk.clone().sent(&unlisted.entry(3)),
        rejected(3, "A", b'L')
    );
    desk.sent(&system(3, b'E'));
    assert_eq!(desk.sent(&bad.entry(3)), rejected(3, "A", b'C'));
}

#[test]
fn replaces_and_all_the_rest_go_on() {
    let mut desk = Desk::worked();
    desk.sent(&firm_only(b'd', 4, ABCD));
    for entry in [
        replace(5, "A", "B", 500),
        cancel(5, "A", 300),
        modify(5, "A", b'S', 300),
        execution(5, "A", 1),
        book_cancel(5, "A", 1),
        self_match(5, "A", 1),
        priority(5, "A", 1),
    ] {
        let letter = desk.clone().sent(&entry)[0];
        assert_ne!(letter, b'J', "{}", char::from(entry[0]));
    }
    let sent = desk.sent(&replace(5, "A", "B", 500));
    assert_eq!((sent[0], &sent[44..48]), (b'U', &ABCD[..]));
    assert_eq!(desk.blocks(), 1, "and the block stays");
}

#[test]
fn the_day_leaves_blocks_alone_and_a_fresh_table_has_none() {
    let mut desk = Desk::before_open(1);
    desk.sent(&firm_only(b'd', 1, ABCD));
    desk.sent(&system(1, b'S'));
    assert_eq!(desk.blocks(), 1);
    desk.sent(&system(1, b'E'));
    assert_eq!(desk.blocks(), 1);
    assert_eq!(fresh(&mut desk.table, 5, &[*ABCD]), 0);
    assert_eq!(desk.blocks(), 0);
}
