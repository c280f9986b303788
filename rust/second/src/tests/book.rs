//! e c q p l f s: what the book and the day do.

use super::kit::*;

#[test]
fn an_execution_grows_executed_and_the_last_one_kills() {
    let mut desk = Desk::worked();
    let message = [
        &token_only(b'E', 4, "A"),
        399_u32.to_be_bytes().as_slice(),
        &1_111_u32.to_be_bytes(),
        b"R",
        &77_u64.to_be_bytes(),
    ]
    .concat();
    assert_eq!(desk.sent(&execution(4, "A", 399)), message);
    assert_eq!(desk.shares(0), ('L', 500, 499, 0));
    assert_eq!(desk.answer(&execution(4, "A", 2)), 6);
    desk.sent(&execution(4, "A", 1));
    assert_eq!(desk.shares(0), ('D', 500, 500, 0));
    assert_eq!(desk.answer(&execution(4, "A", 1)), 5);
}

#[test]
fn a_book_cancel_lowers_liable_whatever_the_day() {
    for reason in *b"ITSDZE" {
        let mut desk = Desk::worked();
        desk.sent(&system(4, b'E'));
        let mut entry = book_cancel(5, "A", 399);
        entry[27] = reason;
        assert_eq!(desk.sent(&entry), canceled(5, "A", 399, reason));
        assert_eq!(desk.shares(0), ('L', 101, 100, 0));
        desk.sent(&book_cancel(6, "A", 1));
        assert_eq!(desk.shares(0), ('D', 100, 100, 0));
        assert_eq!(desk.answer(&book_cancel(6, "A", 1)), 5);
    }
}

#[test]
fn a_self_match_grows_self_matched_and_may_kill() {
    let mut desk = Desk::worked();
    let message = [
        &token_only(b'D', 4, "A"),
        50_u32.to_be_bytes().as_slice(),
        b"Q",
        &60_u32.to_be_bytes(),
        &2_222_u32.to_be_bytes(),
        b"k",
    ]
    .concat();
    assert_eq!(desk.sent(&self_match(4, "A", 50)), message);
    assert_eq!(desk.shares(0), ('L', 500, 100, 50));
    assert_eq!(desk.answer(&self_match(4, "A", 351)), 6);
    desk.sent(&self_match(4, "A", 350));
    assert_eq!(desk.shares(0), ('D', 500, 100, 400));
}

#[test]
fn prices_and_prevented_of_e_and_q_are_carried() {
    for number in [0, u32::MAX] {
        let mut e = execution(4, "A", 1);
        e[27..31].copy_from_slice(&number.to_be_bytes());
        assert_eq!(Desk::worked().sent(&e)[27..31], number.to_be_bytes());
        let mut q = self_match(4, "A", 1);
        q[27..31].copy_from_slice(&number.to_be_bytes());
        q[31..35].copy_from_slice(&number.to_be_bytes());
        let sent = Desk::worked().sent(&q);
        assert_eq!(
            (&sent[28..32], &sent[32..36]),
            (&number.to_be_bytes()[..], &number.to_be_bytes()[..])
        );
    }
}

#[test]
fn a_priority_update_stores_price_display_and_reference() {
    let mut desk = Desk::worked();
    let before = desk.row(0).to_vec();
    let message = [
        &token_only(b'T', 4, "A"),
        777_u32.to_be_bytes().as_slice(),
        b"Y",
        &2_u64.to_be_bytes(),
    ]
    .concat();
    assert_eq!(desk.sent(&priority(4, "A", 777)), message);
    let mut after = before;
    after[36..40].copy_from_slice(&777_u32.to_be_bytes());
    after[48] = b'Y';
    after[56..64].copy_from_slice(&2_u64.to_be_bytes());
    assert_eq!(desk.row(0), after);
    assert_eq!(desk.next_reference(), 3);
}

#[test]
fn late_begins_only_in_a_cross_and_once() {
    assert_eq!(
        Desk::worked().answer(&token_only(b'l', 4, "A")),
        7,
        "cross N"
    );
    let mut desk = Desk::late();
    assert_eq!(desk.answer(&token_only(b'l', 5, "A")), 7, "already late");
    // Only N is refused, even where a table made by hand holds another letter.
    let mut odd = Desk::worked();
    odd.row_mut(0)[55] = b'?';
    assert_eq!(odd.sent(&token_only(b'l', 4, "A")), b"");
    assert_eq!(odd.flags(0), 1);
    let mut before = Desk::worked_as(O {
        cross: b'O',
        ..O::good("A")
    });
    before.table[0] = 0;
    assert_eq!(before.answer(&token_only(b'l', 4, "A")), 7, "day not open");
}

#[test]
fn late_orders_still_trade_and_are_still_canceled_by_the_book() {
    let mut desk = Desk::late();
    desk.sent(&execution(5, "A", 1));
    desk.sent(&self_match(5, "A", 2));
    desk.sent(&book_cancel(5, "A", 3));
    desk.sent(&priority(5, "A", 4));
    assert_eq!((desk.flags(0), desk.shares(0)), (1, ('L', 497, 101, 2)));
}

#[test]
fn flags_of_an_order_that_dies_late_stay() {
    let mut desk = Desk::late();
    desk.sent(&cancel(5, "A", 0));
    desk.sent(&execution(6, "A", 400));
    assert_eq!((desk.flags(0), desk.shares(0)), (3, ('D', 500, 500, 0)));
    assert_eq!(desk.answer(&token_only(b'f', 7, "A")), 5);
}

#[test]
fn the_cross_may_be_done_after_the_close() {
    let mut desk = Desk::late();
    desk.sent(&cancel(5, "A", 0));
    desk.sent(&system(6, b'E'));
    assert_eq!(
        desk.sent(&token_only(b'f', 7, "A")),
        canceled(7, "A", 400, b'U')
    );
    let mut desk = Desk::late();
    desk.row_mut(0)[64] = 0xfd;
    assert_eq!(desk.sent(&token_only(b'f', 7, "A")), b"");
    assert_eq!((desk.flags(0), desk.row(0)[0]), (0xfc, b'L'));
    assert_eq!(desk.answer(&token_only(b'f', 7, "A")), 7, "no longer late");
}

#[test]
fn the_day_opens_once_and_closes_once() {
    let mut desk = Desk::before_open(1);
    assert_eq!(desk.answer(&system(1, b'E')), 7);
    assert_eq!(
        desk.sent(&system(1, b'S')),
        [b"S".as_slice(), &1_u64.to_be_bytes(), b"S"].concat()
    );
    assert_eq!(desk.table[0], 1);
    assert_eq!(desk.answer(&system(1, b'S')), 7);
    assert_eq!(
        desk.sent(&system(2, b'E')),
        [b"S".as_slice(), &2_u64.to_be_bytes(), b"E"].concat()
    );
    assert_eq!(desk.table[0], 2);
    assert_eq!(desk.answer(&system(2, b'S')), 7);
    assert_eq!(desk.answer(&system(2, b'E')), 7);
}

#[test]
fn the_first_record_of_a_token_decides() {
    let mut desk = Desk::worked();
    desk.sent(&O::good("B").entry(4));
    desk.row_mut(1)[1..15].copy_from_slice(&token("A"));
    desk.sent(&execution(4, "A", 400));
    assert_eq!((desk.shares(0).0, desk.shares(1).0), ('D', 'L'));
    assert_eq!(
        desk.answer(&execution(4, "A", 1)),
        5,
        "the later live record isn't seen"
    );
    assert_eq!(desk.answer(&cancel(4, "A", 0)), 1);
}
