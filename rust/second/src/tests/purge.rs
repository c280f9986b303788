//! w: which order it takes, what it leaves of it, and when there is nothing to do.

use super::kit::*;

const ALL: &[u8; 8] = b"        ";
const IBM: &[u8; 8] = b"IBM     ";
const ABCD: &[u8; 4] = b"ABCD";
const EF: &[u8; 4] = b"EF  ";

/// An order of this firm in this stock.
fn order(token: &'static str, firm: &[u8; 4], stock: &[u8; 8]) -> O {
    O {
        firm: *firm,
        stock: *stock,
        ..O::good(token)
    }
}

/// Five orders of both firms in three stocks: A and B of ABCD in IBM, C of EF in IBM, D of ABCD in
/// another, E of EF in a third.
fn five() -> Desk {
    let mut desk = Desk::open(8);
    for order in [
        order("A", ABCD, IBM),
        order("B", b"    ", IBM),
        order("C", EF, IBM),
        order("D", ABCD, b"A       "),
        order("E", EF, b"ZZZZZZZZ"),
    ] {
        assert_eq!(desk.sent(&order.entry(2))[0], b'A');
    }
    desk
}

/// The tokens that a w cancels one after the other, until it is ignored.
fn purged(desk: &mut Desk, firm: &[u8; 4], symbol: &[u8; 8]) -> String {
    let (mut tokens, entry) = (String::new(), mass_cancel(9, firm, symbol));
    desk.empty();
    loop {
        match desk.answer(&entry) {
            0 => tokens.push(char::from(desk.empty()[9])),
            answer => {
                assert_eq!(answer, 1, "with none left it is ignored");
                return tokens;
            }
        }
    }
}

#[test]
fn each_w_takes_the_next_order_in_record_order() {
    for (firm, symbol, tokens) in [
        (ABCD, ALL, "ABD"),
        (EF, ALL, "CE"),
        (ABCD, IBM, "AB"),
        (EF, IBM, "C"),
        (ABCD, b"A       ", "D"),
        (EF, b"A       ", ""),
        (EF, b"ZZZZZZZZ", "E"),
        (ABCD, b"NONE    ", ""),
    ] {
        assert_eq!(purged(&mut five(), firm, symbol), tokens);
    }
}

#[test]
fn an_order_of_a_blank_firm_is_the_defaults() {
    let mut desk = Desk::open(1);
    desk.sent(&order("A", b"    ", IBM).entry(2));
    assert_eq!(purged(&mut desk, EF, ALL), "");
    assert_eq!(purged(&mut desk, ABCD, ALL), "A");
}

/// Symbols that begin or end with spaces, or are nearly spaces, mean themselves and not all.
#[test]
fn only_eight_spaces_mean_all() {
    for symbol in [
        b" IBM    ",
        b"       A",
        b"A\0      ",
        &[0; 8],
        b"       \0",
    ] {
        assert_eq!(purged(&mut five(), ABCD, symbol), "");
        let mut desk = five();
        desk.row_mut(3)[28..36].copy_from_slice(symbol);
        assert_eq!(purged(&mut desk, ABCD, symbol), "D");
    }
}

#[test]
fn a_purged_order_is_dead_and_all_that_was_open_is_told() {
    let mut desk = Desk::worked();
    desk.sent(&self_match(4, "A", 50));
    let mut row = desk.row(0).to_vec();
    let sent = desk.sent(&mass_cancel(7, ABCD, IBM));
    assert_eq!(sent, canceled(7, "A", 350, b'U'));
    assert_eq!(desk.shares(0), ('D', 150, 100, 50));
    row[0] = b'D';
    row[16..20].copy_from_slice(&150_u32.to_be_bytes());
    assert_eq!(desk.row(0), row, "nothing else of the record changes");
    assert_eq!((desk.used(), desk.next_reference()), (1, 2));
    assert_eq!(desk.answer(&cancel(7, "A", 0)), 1);
    assert_eq!(desk.answer(&O::good("A").entry(7)), 1, "its token is used");
}

#[test]
fn a_purge_asks_for_no_open_day() {
    for day in 0..3 {
        let mut desk = five();
        desk.table[0] = day;
        assert_eq!(purged(&mut desk, ABCD, ALL), "ABD");
    }
}

#[test]
fn late_orders_are_passed_over_until_their_cross_is_done() {
    let mut desk = five();
    for name in ["A", "C"] {
        let place = if name == "A" { 0 } else { 2 };
        desk.row_mut(place)[55] = b'C';
        desk.sent(&token_only(b'l', 3, name));
    }
    assert_eq!(purged(&mut desk, ABCD, ALL), "BD");
    assert_eq!(purged(&mut desk, EF, IBM), "");
    assert_eq!((desk.flags(0), desk.shares(0).0), (1, 'L'), "untouched");
    desk.sent(&token_only(b'f', 9, "A"));
    assert_eq!(purged(&mut desk, ABCD, ALL), "A");
    assert_eq!(desk.shares(2).0, 'L');
}

/// Only late counts among the flags, and all of them stay.
#[test]
fn other_flags_keep_no_order_from_a_purge() {
    for flags in 0..=255_u8 {
        let mut desk = Desk::worked();
        desk.row_mut(0)[64] = flags;
        let late = flags & 1 == 1;
        assert_eq!(purged(&mut desk, ABCD, ALL), if late { "" } else { "A" });
        assert_eq!(desk.flags(0), flags);
    }
}

#[test]
fn dead_and_rejected_records_are_passed_over() {
    let mut desk = five();
    desk.sent(&cancel(3, "A", 0));
    let unlisted = order("R", ABCD, b"NONE    ");
    assert_eq!(desk.sent(&unlisted.entry(3)), rejected(3, "R", b'S'));
    desk.sent(&replace(3, "B", "F", 400));
    assert_eq!(purged(&mut desk, ABCD, ALL), "DF");
}

/// No token is named, so a record goes by its own state even where an earlier one has its token.
#[test]
fn records_of_one_token_are_purged_one_by_one() {
    let mut desk = five();
    for place in [1, 3] {
        desk.row_mut(place)[1..15].copy_from_slice(&token("A"));
    }
    assert_eq!(purged(&mut desk, ABCD, ALL), "AAA");
    let mut desk = five();
    desk.sent(&cancel(3, "A", 0));
    desk.row_mut(3)[1..15].copy_from_slice(&token("A"));
    assert_eq!(desk.answer(&cancel(3, "A", 0)), 1, "A means the dead one");
    assert_eq!(purged(&mut desk, ABCD, b"A       "), "A");
    assert_eq!(desk.shares(3).0, 'D');
}

#[test]
fn firms_and_symbols_are_whole() {
    let mut desk = five();
    for (place, firm) in [(0, b"ABC "), (1, b"ABCE"), (3, b"bBCD")] {
        desk.row_mut(place)[44..48].copy_from_slice(firm);
    }
    assert_eq!(purged(&mut desk, ABCD, ALL), "");
    let mut desk = five();
    for (place, stock) in [(0, b"IBMA    "), (1, b"IBM    A")] {
        desk.row_mut(place)[28..36].copy_from_slice(stock);
    }
    assert_eq!(purged(&mut desk, ABCD, IBM), "");
}

#[test]
fn what_is_halted_or_blocked_is_purged_too() {
    let mut desk = five().with_state(IBM, b'H');
    desk.sent(&firm_only(b'd', 3, ABCD));
    assert_eq!(purged(&mut desk, ABCD, IBM), "AB");
    assert_eq!(desk.blocks(), 1);
    let mut nothing_listed = five().with_stocks(&[]);
    assert_eq!(purged(&mut nothing_listed, EF, ALL), "CE");
}

#[test]
fn a_purge_that_finds_no_order_changes_nothing_and_needs_no_room() {
    let mut desk = Desk::worked().with_free(0);
    assert_eq!(desk.answer(&mass_cancel(4, EF, ALL)), 1);
    assert_eq!(desk.answer(&mass_cancel(4, ABCD, ALL)), 9);
    assert_eq!(desk.answer(&mass_cancel(50, EF, ALL)), 1);
    assert_eq!(desk.answer(&firm_only(b'n', 3, EF)), 0, "the stamp stayed");
}

#[test]
fn a_blocked_purge_takes_the_same_order_later() {
    let mut desk = five().with_ring(80).with_free(27);
    let entry = mass_cancel(3, ABCD, ALL);
    assert_eq!(desk.answer(&entry), 9);
    desk.held -= 1;
    assert_eq!(desk.answer(&entry), 0);
    assert_eq!((desk.shares(0).0, desk.shares(1).0), ('D', 'L'));
}

/// 2, then 3, then 4, then 15, then 1.
#[test]
fn refusals_have_their_order() {
    let late = 86_400_000_000_000;
    for (kind, symbol, done) in [(b'w', &ALL[..], 1), (b'd', b"", 0), (b'n', b"", 0)] {
        let mut desk = Desk::worked();
        let entry = |stamp, firm| [&firm_only(kind, stamp, firm)[..], symbol].concat();
        let bad = entry(late, b"NONE");
        assert_eq!(desk.answer(&bad[..bad.len() - 1]), 2);
        assert_eq!(desk.answer(&[&bad[..], b" "].concat()), 2);
        assert_eq!(desk.told(&bad), told_at(Some(1)));
        assert_eq!(desk.answer(&entry(2, b"NONE")), 4);
        assert_eq!(desk.answer(&entry(3, b"NONE")), 15);
        assert_eq!(desk.answer(&entry(2, EF)), 4);
        assert_eq!(desk.answer(&entry(3, EF)), done);
    }
}

#[test]
fn a_firm_that_is_not_listed_is_15() {
    let mut desk = five();
    // Even where a record made by hand has it.
    desk.row_mut(0)[44..48].copy_from_slice(b"    ");
    desk.row_mut(1)[44..48].copy_from_slice(&[0; 4]);
    desk.row_mut(2)[44..48].copy_from_slice(b"NONE");
    for firm in [
        b"    ", &[0; 4], b"NONE", b"ABC ", b"abcd", b" EF ", b"EF\0\0", b"ABCE",
    ] {
        assert_eq!(desk.answer(&mass_cancel(3, firm, ALL)), 15);
        assert_eq!(desk.answer(&firm_only(b'd', 3, firm)), 15);
        assert_eq!(desk.answer(&firm_only(b'n', 3, firm)), 15);
    }
}
