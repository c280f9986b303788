//! X: the intended size limits executions alone, and the decrement is what is open no longer; late
//! cancels wait or are refused.

use super::kit::*;

/// 500 entered under "A", 100 executed, 50 self-matched: 350 are open, and the size 450 would leave
/// them all.
fn self_matched() -> Desk {
    let mut desk = Desk::worked();
    desk.sent(&self_match(4, "A", 50));
    desk
}

/// The same in the late period of its cross.
fn self_matched_and_late() -> Desk {
    let mut desk = Desk::late();
    desk.sent(&self_match(4, "A", 50));
    desk
}

/// The same after a Cancel to 300: 200 are open.
fn self_matched_and_cancelled() -> Desk {
    let mut desk = self_matched();
    assert_eq!(desk.sent(&cancel(4, "A", 300)), canceled(4, "A", 150, b'U'));
    desk
}

/// An order under "A" with these shares and flags, made by hand.
fn made((executed, self_matched, open): (u32, u32, u32), flags: u8) -> Desk {
    let mut desk = Desk::worked();
    let shares = [executed + self_matched + open, executed, self_matched];
    let row = desk.row_mut(0);
    row[16..28].copy_from_slice(shares.map(u32::to_be_bytes).as_flattened());
    row[64] = flags;
    desk.table = desk.recounted();
    desk
}

#[test]
fn a_size_leaves_open_what_it_lets_execute() {
    for (size, decrement, after) in [
        (0, 350, ('D', 150, 100, 50)),
        (1, 350, ('D', 150, 100, 50)),
        (99, 350, ('D', 150, 100, 50)),
        (100, 350, ('D', 150, 100, 50)),
        (101, 349, ('L', 151, 100, 50)),
        (149, 301, ('L', 199, 100, 50)),
        (150, 300, ('L', 200, 100, 50)),
        (151, 299, ('L', 201, 100, 50)),
        (448, 2, ('L', 498, 100, 50)),
        (449, 1, ('L', 499, 100, 50)),
    ] {
        let mut desk = self_matched();
        assert_eq!(
            desk.sent(&cancel(5, "A", size)),
            canceled(5, "A", decrement, b'U'),
            "size {size}"
        );
        assert_eq!(desk.shares(0), after, "size {size}");
    }
}

#[test]
fn a_size_that_would_leave_no_less_is_ignored() {
    for size in [450, 451, 499, 500, 501, u32::MAX] {
        assert_eq!(
            self_matched().answer(&cancel(5, "A", size)),
            1,
            "size {size}"
        );
    }
    for size in [500, 501, u32::MAX] {
        assert_eq!(
            Desk::worked().answer(&cancel(5, "A", size)),
            1,
            "nothing self-matched, size {size}"
        );
    }
    let mut desk = Desk::worked();
    assert_eq!(desk.sent(&cancel(5, "A", 499)), canceled(5, "A", 1, b'U'));
}

#[test]
fn a_late_size_that_would_leave_no_less_is_ignored_and_sets_no_flag() {
    for size in [450, 451, 499, 500, 501, u32::MAX] {
        let mut desk = self_matched_and_late();
        assert_eq!(desk.answer(&cancel(5, "A", size)), 1, "size {size}");
        assert_eq!(desk.flags(0), 1, "size {size}");
        assert_eq!(
            desk.sent(&cancel(5, "A", 449)),
            token_only(b'I', 5, "A"),
            "nothing was refused yet"
        );
    }
}

/// Whether it would leave something open or nothing.
#[test]
fn a_late_size_that_would_leave_less_is_refused_once() {
    for size in [1, 99, 100, 101, 149, 150, 151, 448, 449] {
        let mut desk = self_matched_and_late();
        let entry = cancel(5, "A", size);
        assert_eq!(desk.sent(&entry), token_only(b'I', 5, "A"), "size {size}");
        assert_eq!(
            (desk.flags(0), desk.shares(0)),
            (5, ('L', 500, 100, 50)),
            "size {size}"
        );
        assert_eq!(desk.answer(&entry), 1, "size {size}");
    }
}

#[test]
fn a_late_cancel_of_a_self_matched_order_waits_for_the_cross() {
    let mut desk = self_matched_and_late();
    assert_eq!(desk.sent(&cancel(5, "A", 0)), token_only(b'P', 5, "A"));
    assert_eq!((desk.flags(0), desk.shares(0)), (3, ('L', 500, 100, 50)));
    assert_eq!(
        desk.sent(&token_only(b'f', 6, "A")),
        canceled(6, "A", 350, b'U')
    );
    assert_eq!((desk.flags(0), desk.shares(0)), (0, ('D', 150, 100, 50)));
}

#[test]
fn pending_is_ignored_whatever_the_size() {
    for flags in [2, 3, 6, 7, 0xfa] {
        for size in [0, 1, 99, 100, 101, 449, 450, 500, u32::MAX] {
            let mut desk = made((100, 50, 350), flags);
            assert_eq!(
                desk.answer(&cancel(5, "A", size)),
                1,
                "flags {flags}, size {size}"
            );
        }
    }
}

#[test]
fn executions_go_on_up_to_the_intended_size() {
    for size in [102, 150, 151, 300, 449] {
        let mut desk = self_matched();
        desk.sent(&cancel(5, "A", size));
        let open = size - 100;
        assert_eq!(desk.answer(&execution(6, "A", open + 1)), 6, "size {size}");
        desk.sent(&execution(6, "A", open - 1));
        assert_eq!(desk.answer(&execution(6, "A", 2)), 6, "size {size}");
        desk.sent(&execution(6, "A", 1));
        let size = u64::from(size);
        assert_eq!(desk.shares(0), ('D', size + 50, size, 50));
    }
}

#[test]
fn each_cancel_counts_from_what_is_open_by_then() {
    let mut desk = self_matched_and_cancelled();
    assert_eq!(desk.answer(&cancel(5, "A", 300)), 1, "the same size again");
    desk.sent(&self_match(5, "A", 20));
    assert_eq!(desk.answer(&cancel(5, "A", 299)), 1, "199 above 180 open");
    assert_eq!(desk.answer(&cancel(5, "A", 280)), 1, "180 as they are");
    assert_eq!(desk.sent(&cancel(5, "A", 279)), canceled(5, "A", 1, b'U'));
    assert_eq!(desk.shares(0), ('L', 349, 100, 70));
    desk.sent(&execution(6, "A", 10));
    assert_eq!(desk.answer(&cancel(6, "A", 279)), 1, "executed, not raised");
    assert_eq!(desk.sent(&cancel(6, "A", 111)), canceled(6, "A", 168, b'U'));
    assert_eq!(desk.shares(0), ('L', 181, 110, 70));
}

/// Executed is the whole chain's, and so are the self-matched shares that don't count.
#[test]
fn a_replacement_is_cancelled_as_its_chain() {
    let mut desk = self_matched();
    desk.sent(&replace(5, "A", "B", 600));
    assert_eq!(desk.shares(1), ('L', 600, 100, 50));
    assert_eq!(desk.answer(&cancel(5, "B", 550)), 1);
    assert_eq!(desk.sent(&cancel(5, "B", 549)), canceled(5, "B", 1, b'U'));
    assert_eq!(desk.sent(&cancel(5, "B", 101)), canceled(5, "B", 448, b'U'));
    assert_eq!(desk.shares(1), ('L', 151, 100, 50));
    assert_eq!(desk.sent(&cancel(5, "B", 100)), canceled(5, "B", 1, b'U'));
    assert_eq!(desk.shares(1), ('D', 150, 100, 50));
}

#[test]
fn a_replace_still_counts_self_matched_shares() {
    for (shares, shown) in [(350, 200), (300, 150), (152, 2), (151, 1)] {
        let mut desk = self_matched_and_cancelled();
        let message = desk.sent(&replace(5, "A", "B", shares));
        assert_eq!((message[0], number(&message[24..28])), (b'U', shown));
        assert_eq!(desk.shares(1), ('L', u64::from(shares), 100, 50));
    }
    for shares in [150, 149, 101, 100] {
        let mut desk = self_matched_and_cancelled();
        assert_eq!(
            desk.sent(&replace(5, "A", "B", shares)),
            canceled(5, "A", 200, b'U'),
            "shares {shares}"
        );
    }
}

#[test]
fn a_modify_still_counts_self_matched_shares() {
    for (shares, shown) in [(349, 199), (300, 150), (152, 2), (151, 1)] {
        let mut desk = self_matched_and_cancelled();
        assert_eq!(
            desk.sent(&modify(5, "A", b'S', shares)),
            modified(5, "A", b'S', shown)
        );
        assert_eq!(desk.shares(0), ('L', u64::from(shares), 100, 50));
    }
    for shares in [350, 351, 150, 149, 101, 100] {
        let entry = modify(5, "A", b'S', shares);
        assert_eq!(
            self_matched_and_cancelled().answer(&entry),
            1,
            "shares {shares}"
        );
    }
}

#[test]
fn the_largest_totals_are_cancelled_at_their_edges() {
    for (shares, size, decrement) in [
        ((0, 999_998, 1), 0, Some(1)),
        ((0, 999_998, 1), 1, None),
        ((0, 999_998, 1), 999_998, None),
        ((0, 999_998, 1), 999_999, None),
        ((0, 1, 999_998), 0, Some(999_998)),
        ((0, 1, 999_998), 999_997, Some(1)),
        ((0, 1, 999_998), 999_998, None),
        ((999_997, 1, 1), 999_996, Some(1)),
        ((999_997, 1, 1), 999_997, Some(1)),
        ((999_997, 1, 1), 999_998, None),
        ((999_997, 1, 1), u32::MAX, None),
    ] {
        let mut desk = made(shares, 0);
        let entry = cancel(5, "A", size);
        match decrement {
            Some(decrement) => assert_eq!(desk.sent(&entry), canceled(5, "A", decrement, b'U')),
            None => assert_eq!(desk.answer(&entry), 1, "{shares:?}, size {size}"),
        }
    }
}

/// What a Cancel of this size sends, and the liable shares and flags that it leaves, by the paper's
/// words once more; nothing where it is ignored.
fn by_the_paper(
    (executed, self_matched, open): (u32, u32, u32),
    flags: u8,
    size: u32,
) -> Option<(Vec<u8>, u32, u8)> {
    let (spent, new_open) = (executed + self_matched, size.max(executed) - executed);
    let [late, pending, reject_sent] = [1, 2, 4].map(|flag| flags & flag != 0);
    if new_open >= open || pending {
        return None;
    }
    match (late, size) {
        (true, 0) => Some((token_only(b'P', 5, "A"), spent + open, flags | 2)),
        (true, _) if reject_sent => None,
        (true, _) => Some((token_only(b'I', 5, "A"), spent + open, flags | 4)),
        (false, _) => {
            let message = canceled(5, "A", open - new_open, b'U');
            Some((message, spent + new_open, flags))
        }
    }
}

/// Cancels such an order to this size, and holds the outcome to the paper's words.
fn cancelled_by_the_paper(shares: (u32, u32, u32), flags: u8, size: u32) {
    let case = format!("{shares:?}, flags {flags}, size {size}");
    let mut desk = made(shares, flags);
    let entry = cancel(5, "A", size);
    let Some((message, liable, flags)) = by_the_paper(shares, flags, size) else {
        assert_eq!(desk.answer(&entry), 1, "{case}");
        return;
    };
    assert_eq!(desk.sent(&entry), message, "{case}");
    let (executed, self_matched, _) = shares;
    let [liable, executed, self_matched] = [liable, executed, self_matched].map(u64::from);
    let live = liable > executed + self_matched;
    let state = if live { 'L' } else { 'D' };
    assert_eq!(
        desk.shares(0),
        (state, liable, executed, self_matched),
        "{case}"
    );
    assert_eq!(desk.flags(0), flags, "{case}");
}

/// All orders of up to three executed, three self-matched and four open, with all flags.
#[test]
fn every_small_order_is_cancelled_by_the_papers_words() {
    for number in 0..64 {
        let shares = (number / 16, number / 4 % 4, number % 4 + 1);
        for flags in 0..8 {
            (0..12).for_each(|size| cancelled_by_the_paper(shares, flags, size));
        }
    }
}

#[test]
fn ignored_when_not_live() {
    let mut desk = Desk::worked();
    assert_eq!(desk.answer(&cancel(4, "Z", 0)), 1);
    desk.sent(&cancel(4, "A", 0));
    assert_eq!(desk.answer(&cancel(4, "A", 0)), 1, "the same cancel again");
    desk.sent(
        &O {
            shares: 0,
            ..O::good("R")
        }
        .entry(4),
    );
    assert_eq!(desk.answer(&cancel(4, "R", 0)), 1);
}

#[test]
fn a_cancel_does_not_ask_for_the_day() {
    let mut desk = Desk::worked();
    desk.sent(&system(4, b'E'));
    assert_eq!(desk.sent(&cancel(4, "A", 300)), canceled(4, "A", 200, b'U'));
    desk.table[0] = 0;
    assert_eq!(desk.sent(&cancel(4, "A", 0)), canceled(4, "A", 200, b'U'));
}

#[test]
fn a_late_cancel_of_all_waits_for_the_cross() {
    let mut desk = Desk::late();
    assert_eq!(desk.sent(&cancel(5, "A", 0)), token_only(b'P', 5, "A"));
    assert_eq!((desk.flags(0), desk.shares(0)), (3, ('L', 500, 100, 0)));
    assert_eq!(desk.answer(&cancel(6, "A", 0)), 1, "pending");
    assert_eq!(desk.answer(&cancel(6, "A", 300)), 1, "pending");
    assert_eq!(
        desk.sent(&token_only(b'f', 7, "A")),
        canceled(7, "A", 400, b'U')
    );
    assert_eq!((desk.flags(0), desk.shares(0)), (0, ('D', 100, 100, 0)));
}

#[test]
fn a_late_partial_cancel_is_refused_once_a_token() {
    let mut desk = Desk::late();
    assert_eq!(
        desk.answer(&cancel(5, "A", 500)),
        1,
        "it would leave no less: the first test wins"
    );
    assert_eq!(desk.flags(0), 1);
    assert_eq!(desk.sent(&cancel(5, "A", 499)), token_only(b'I', 5, "A"));
    assert_eq!((desk.flags(0), desk.shares(0)), (5, ('L', 500, 100, 0)));
    assert_eq!(desk.answer(&cancel(5, "A", 1)), 1);
    desk.sent(&token_only(b'f', 6, "A"));
    assert_eq!(desk.flags(0), 4, "sent stays sent");
    desk.sent(&token_only(b'l', 7, "A"));
    assert_eq!(
        desk.answer(&cancel(8, "A", 1)),
        1,
        "once a token, not once a late period"
    );
    assert_eq!(
        desk.sent(&cancel(8, "A", 0)),
        token_only(b'P', 8, "A"),
        "a whole cancel still waits"
    );
    assert_eq!(desk.flags(0), 7);
    desk.sent(&token_only(b'f', 9, "A"));
    assert_eq!((desk.flags(0), desk.row(0)[0]), (4, b'D'));
}

#[test]
fn a_replacement_token_has_its_own_cancel_reject() {
    let mut desk = Desk::late();
    desk.sent(&cancel(5, "A", 1));
    desk.sent(&token_only(b'f', 5, "A"));
    desk.sent(&replace(5, "A", "B", 500));
    desk.sent(&token_only(b'l', 5, "B"));
    assert_eq!(desk.sent(&cancel(5, "B", 1)), token_only(b'I', 5, "B"));
}

#[test]
fn after_the_cross_a_partial_cancel_works_again() {
    let mut desk = Desk::late();
    desk.sent(&cancel(5, "A", 300));
    desk.sent(&token_only(b'f', 6, "A"));
    assert_eq!(desk.sent(&cancel(7, "A", 300)), canceled(7, "A", 200, b'U'));
    assert_eq!(desk.flags(0), 4);
}

#[test]
fn pending_alone_is_ignored_and_unjudged_bits_are_kept() {
    let mut desk = Desk::worked();
    desk.row_mut(0)[64] = 2;
    assert_eq!(desk.answer(&cancel(4, "A", 0)), 1);
    desk.row_mut(0)[64] = 0xf8;
    desk.row_mut(0)[79] = 7;
    assert_eq!(desk.sent(&cancel(4, "A", 300)), canceled(4, "A", 200, b'U'));
    assert_eq!((desk.flags(0), desk.row(0)[79]), (0xf8, 7));
    desk.row_mut(0)[64] = 0xf9;
    assert_eq!(desk.sent(&cancel(4, "A", 0)), token_only(b'P', 4, "A"));
    assert_eq!((desk.flags(0), desk.row(0)[79]), (0xfb, 7));
}
