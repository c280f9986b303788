//! h: what it sets, when it is refused, and all that it leaves alone.

use super::kit::*;

const IBM: &[u8; 8] = b"IBM     ";

/// The state of a place of the list.
fn state(desk: &Desk, place: usize) -> char {
    char::from(desk.stocks[9 * place + 8])
}

#[test]
fn a_halt_sets_one_byte_and_sends_nothing() {
    for place in 0..4 {
        let mut desk = Desk::open(2);
        let before = desk.clone();
        let symbol: [u8; 8] = desk.stocks[9 * place..][..8].try_into().unwrap();
        for (state, stamp) in [(b'H', 2), (b'T', 3), (b'H', 4)] {
            assert_eq!(desk.sent(&halt(stamp, &symbol, state)), b"");
            let mut right = before.clone();
            right.stocks[9 * place + 8] = state;
            right.table[8..16].copy_from_slice(&stamp.to_be_bytes());
            assert_eq!((&desk.stocks, &desk.table), (&right.stocks, &right.table));
            assert_eq!(desk.ring, right.ring);
        }
    }
}

#[test]
fn setting_the_state_that_is_there_is_done() {
    for state in *b"TH" {
        let mut desk = Desk::open(1).with_state(IBM, state);
        let list = desk.stocks.clone();
        assert_eq!(desk.sent(&halt(9, IBM, state)), b"");
        assert_eq!(desk.stocks, list);
        assert_eq!(
            desk.answer(&halt(8, IBM, state)),
            4,
            "the last stamp has moved"
        );
    }
}

#[test]
fn a_halt_asks_for_no_open_day() {
    let mut desk = Desk::before_open(1);
    assert_eq!(desk.sent(&halt(1, IBM, b'H')), b"");
    desk.sent(&system(1, b'S'));
    assert_eq!(desk.sent(&halt(2, IBM, b'T')), b"");
    desk.sent(&system(2, b'E'));
    assert_eq!(desk.sent(&halt(3, IBM, b'H')), b"");
    assert_eq!((state(&desk, 2), desk.table[0]), ('H', 2));
}

#[test]
fn a_halt_needs_neither_room_nor_a_record() {
    let mut desk = Desk::open(1);
    desk.sent(&O::good("A").entry(2));
    let mut desk = desk.with_ring(80).with_free(0);
    desk.table[16..24].copy_from_slice(&1_000_000_000_000_000_000_u64.to_be_bytes());
    assert_eq!(desk.answer(&halt(3, IBM, b'H')), 0);
    assert_eq!((state(&desk, 2), desk.held), ('H', 80));
}

#[test]
fn an_unlisted_symbol_is_5() {
    let mut desk = Desk::open(1);
    for symbol in [b"IBMA    ", b"IB      ", b"ibm     ", b"        ", &[0; 8]] {
        for state in *b"TH" {
            assert_eq!(desk.answer(&halt(2, symbol, state)), 5);
        }
    }
    let mut nothing_listed = Desk::open(1).with_stocks(&[]);
    assert_eq!(nothing_listed.answer(&halt(2, IBM, b'H')), 5);
}

/// The symbol itself isn't judged, so that whatever a list has can be halted.
#[test]
fn any_listed_bytes_can_be_halted() {
    let odd = b"\xff \0a-\x80 ";
    let odd: &[u8; 8] = &[odd.as_slice(), b"!"].concat().try_into().unwrap();
    let mut desk = Desk::open(1).with_stocks(&[(IBM, b'T'), (odd, b'T')]);
    assert_eq!(desk.answer(&halt(2, odd, b'H')), 0);
    assert_eq!((state(&desk, 0), state(&desk, 1)), ('T', 'H'));
}

#[test]
fn another_state_is_3_at_its_place_and_a_bad_stamp_comes_first() {
    let late = 86_400_000_000_000;
    for byte in (0..=255).filter(|byte| !b"TH".contains(byte)) {
        let mut desk = Desk::open(1);
        assert_eq!(desk.told(&halt(2, IBM, byte)), told_at(Some(17)));
        assert_eq!(desk.told(&halt(late, IBM, byte)), told_at(Some(1)));
    }
    let mut desk = Desk::open(1);
    assert_eq!(desk.told(&halt(late, IBM, b'H')), told_at(Some(1)));
    assert_eq!(desk.told(&halt(late - 1, IBM, b'H')), told_at(None));
}

/// 2, then 3, then 4, then 5.
#[test]
fn refusals_have_their_order() {
    let unlisted = b"NONE    ";
    let mut desk = Desk::worked();
    assert_eq!(desk.answer(&halt(2, unlisted, b'x')[..17]), 2);
    assert_eq!(
        desk.answer(&[&halt(2, unlisted, b'x')[..], b"T"].concat()),
        2
    );
    assert_eq!(desk.answer(&halt(2, unlisted, b'x')), 3);
    assert_eq!(desk.answer(&halt(2, unlisted, b'H')), 4);
    assert_eq!(desk.answer(&halt(2, IBM, b'H')), 4);
    assert_eq!(desk.answer(&halt(3, unlisted, b'H')), 5);
    assert_eq!(desk.answer(&halt(3, IBM, b'H')), 0);
}

#[test]
fn a_refused_halt_does_not_move_the_last_stamp() {
    let mut desk = Desk::open(1);
    assert_eq!(desk.answer(&halt(50, b"NONE    ", b'H')), 5);
    assert_eq!(desk.answer(&halt(60, IBM, b'h')), 3);
    assert_eq!(desk.answer(&halt(1, IBM, b'H')), 0);
}

#[test]
fn a_halt_is_felt_by_the_next_entries_and_freed_again() {
    let mut desk = Desk::worked();
    desk.sent(&halt(4, IBM, b'H'));
    assert_eq!(desk.sent(&O::good("B").entry(4)), rejected(4, "B", b'H'));
    let sent = desk.sent(&replace(4, "A", "C", 500));
    assert_eq!(sent, rejected(4, "C", b'H'));
    desk.sent(&halt(5, IBM, b'T'));
    assert_eq!(desk.sent(&O::good("D").entry(5))[0], b'A');
    assert_eq!(desk.sent(&replace(5, "A", "E", 500))[0], b'U');
}
