//! M: side changes among the sales, shares that fall, and nothing else.

use super::kit::*;

#[test]
fn sides_stay_or_change_among_the_sales() {
    for old in *b"BSTE" {
        for new in *b"BSTE" {
            let allowed = old == new || (old != b'B' && new != b'B');
            let mut desk = Desk::worked_as(O {
                side: old,
                ..O::good("A")
            });
            let entry = modify(4, "A", new, 300);
            if allowed {
                assert_eq!(desk.sent(&entry), modified(4, "A", new, 200));
                assert_eq!((desk.row(0)[15], desk.shares(0)), (new, ('L', 300, 100, 0)));
            } else {
                assert_eq!(desk.answer(&entry), 1);
            }
        }
    }
}

#[test]
fn an_odd_side_of_a_table_made_by_hand_changes_to_nothing() {
    for new in *b"BSTE" {
        let mut desk = Desk::worked();
        desk.row_mut(0)[15] = 0;
        assert_eq!(desk.answer(&modify(4, "A", new, 300)), 1);
    }
}

#[test]
fn shares_lie_above_what_was_spent_and_not_above_liable() {
    for (shares, open) in [
        (151, Some(1)),
        (152, Some(2)),
        (499, Some(349)),
        (500, None),
        (501, None),
    ] {
        let mut desk = Desk::worked();
        desk.sent(&self_match(4, "A", 50));
        let entry = modify(5, "A", b'S', shares);
        match open {
            Some(open) => assert_eq!(desk.sent(&entry), modified(5, "A", b'S', open)),
            None => assert_eq!(desk.answer(&entry), 1, "shares {shares}"),
        }
    }
    for shares in [0, 1, 149, 150, u32::MAX] {
        let mut desk = Desk::worked();
        desk.sent(&self_match(4, "A", 50));
        assert_eq!(
            desk.answer(&modify(5, "A", b'T', shares)),
            1,
            "shares {shares}"
        );
    }
}

#[test]
fn a_side_alone_may_change() {
    let mut desk = Desk::worked();
    assert_eq!(
        desk.answer(&modify(4, "A", b'S', 500)),
        1,
        "nothing would change"
    );
    let before = desk.row(0).to_vec();
    assert_eq!(
        desk.sent(&modify(4, "A", b'E', 500)),
        modified(4, "A", b'E', 400)
    );
    assert_eq!(desk.row(0)[15], b'E');
    assert_eq!(desk.row(0)[16..], before[16..]);
    assert_eq!(desk.next_reference(), 2, "priority and reference stay");
    assert_eq!(desk.answer(&modify(4, "A", b'E', 500)), 1, "the same again");
}

#[test]
fn ignored_when_not_live_not_open_or_late() {
    let entry = modify(5, "A", b'S', 300);
    assert_eq!(Desk::open(1).answer(&entry), 1);
    assert_eq!(Desk::late().answer(&entry), 1);
    let mut closed = Desk::worked();
    closed.sent(&system(4, b'E'));
    assert_eq!(closed.answer(&entry), 1);
    closed.table[0] = 0;
    assert_eq!(closed.answer(&entry), 1);
    let mut dead = Desk::worked();
    dead.sent(&cancel(4, "A", 0));
    assert_eq!(dead.answer(&entry), 1);
}

#[test]
fn the_threshold_is_not_asked() {
    let mut desk = Desk::worked();
    desk.table[24..28].copy_from_slice(&2_u32.to_be_bytes());
    assert_eq!(
        desk.sent(&modify(4, "A", b'S', 499)),
        modified(4, "A", b'S', 399)
    );
}

#[test]
fn pending_without_late_is_not_asked() {
    let mut desk = Desk::worked();
    desk.row_mut(0)[64] = 2;
    assert_eq!(
        desk.sent(&modify(4, "A", b'S', 300)),
        modified(4, "A", b'S', 200)
    );
    assert_eq!(desk.flags(0), 2);
}
