//! The paper's worked numbers, 1 to 15.

use super::kit::*;

/// The Shares field of an Accepted, a Replaced or a Modified.
fn shown(message: &[u8]) -> (char, u64) {
    (char::from(message[0]), number(&message[24..28]))
}

#[test]
fn number_1_replace_500_shows_400() {
    let mut desk = Desk::worked();
    assert_eq!(shown(&desk.sent(&replace(4, "A", "B", 500))), ('U', 400));
    assert_eq!(desk.shares(0), ('D', 100, 100, 0));
    assert_eq!(desk.shares(1), ('L', 500, 100, 0));
}

#[test]
fn number_2_replace_600_shows_500() {
    let mut desk = Desk::worked();
    assert_eq!(shown(&desk.sent(&replace(4, "A", "B", 600))), ('U', 500));
    assert_eq!(desk.shares(1), ('L', 600, 100, 0));
}

#[test]
fn number_3_replace_100_cancels_and_101_leaves_1() {
    let mut desk = Desk::worked();
    assert_eq!(
        desk.sent(&replace(4, "A", "B", 100)),
        canceled(4, "A", 400, b'U')
    );
    assert_eq!(desk.shares(0), ('D', 100, 100, 0));
    assert_eq!(desk.used(), 1);
    assert_eq!(
        desk.sent(&O::good("B").entry(5))[0],
        b'A',
        "the replacement token stayed free"
    );

    let mut desk = Desk::worked();
    assert_eq!(shown(&desk.sent(&replace(4, "A", "B", 101))), ('U', 1));
}

#[test]
fn number_4_cancel_300_removes_200() {
    let mut desk = Desk::worked();
    assert_eq!(desk.sent(&cancel(4, "A", 300)), canceled(4, "A", 200, b'U'));
    assert_eq!(desk.shares(0), ('L', 300, 100, 0));
}

#[test]
fn number_5_cancel_50_kills_and_500_is_ignored() {
    let mut desk = Desk::worked();
    assert_eq!(desk.answer(&cancel(4, "A", 500)), 1);
    assert_eq!(desk.sent(&cancel(4, "A", 50)), canceled(4, "A", 400, b'U'));
    assert_eq!(desk.shares(0), ('D', 100, 100, 0));
}

#[test]
fn number_6_self_match_50_then_replace_500_shows_350() {
    let mut desk = Desk::worked();
    assert_eq!(desk.sent(&self_match(4, "A", 50))[0], b'D');
    assert_eq!(shown(&desk.sent(&replace(5, "A", "B", 500))), ('U', 350));
    assert_eq!(desk.shares(1), ('L', 500, 100, 50));
    assert_eq!(desk.shares(0), ('D', 150, 100, 50));
}

#[test]
fn number_7_self_match_50_then_cancel_300_leaves_200() {
    let mut desk = Desk::worked();
    assert_eq!(desk.sent(&self_match(4, "A", 50))[0], b'D');
    assert_eq!(desk.sent(&cancel(5, "A", 300)), canceled(5, "A", 150, b'U'));
    assert_eq!(desk.shares(0), ('L', 350, 100, 50));
}

#[test]
fn number_8_modify_300_shows_200_and_501_is_ignored() {
    let mut desk = Desk::worked();
    assert_eq!(desk.answer(&modify(4, "A", b'S', 501)), 1);
    assert_eq!(
        desk.sent(&modify(4, "A", b'S', 300)),
        modified(4, "A", b'S', 200)
    );
    assert_eq!(desk.shares(0), ('L', 300, 100, 0));
}

#[test]
fn number_9_replace_while_late_is_rejected_and_the_order_stays() {
    let mut desk = Desk::late();
    let order = desk.row(0).to_vec();
    assert_eq!(
        desk.sent(&replace(5, "A", "B", 1_000_000)),
        rejected(5, "B", b'R')
    );
    assert_eq!(desk.row(0), order);
    assert_eq!(desk.row(1)[..15], [b"R".as_slice(), &token("B")].concat());
    assert_eq!(desk.row(1)[15..], [0; 65]);
}

#[test]
fn number_10_time_in_force_above_99_999_becomes_that() {
    let mut desk = Desk::open(8);
    for (name, sent_in, kept) in [
        ("A", 100_000, 99_999),
        ("B", 99_999, 99_999),
        ("C", 99_998, 99_998),
    ] {
        let entry = O {
            time_in_force: sent_in,
            ..O::good(name)
        }
        .entry(2);
        let message = desk.sent(&entry);
        assert_eq!((message[0], number(&message[40..44])), (b'A', kept));
    }
    assert_eq!(number(&desk.row(0)[40..44]), 99_999);
}

#[test]
fn numbers_11_and_12_prices() {
    for (price, cross, letter) in [
        (1_999_999_900, b'N', b'A'),
        (1_999_999_901, b'N', b'X'),
        (1_999_999_901, b'O', b'X'),
        (2_147_483_647, b'N', b'X'),
        (2_147_483_647, b'O', b'A'),
        (2_147_483_647, b'C', b'A'),
        (2_147_483_646, b'C', b'X'),
        (2_147_483_648, b'C', b'X'),
        (0, b'O', b'X'),
        (1, b'N', b'A'),
    ] {
        let message = Desk::open(1).sent(
            &O {
                price,
                cross,
                ..O::good("A")
            }
            .entry(2),
        );
        let got = if message[0] == b'J' {
            message[23]
        } else {
            message[0]
        };
        assert_eq!(got, letter, "price {price}, cross {}", char::from(cross));
    }
}

#[test]
fn number_13_shares_against_the_threshold() {
    let entry = |shares| {
        O {
            shares,
            ..O::good("A")
        }
        .entry(2)
    };
    assert_eq!(shown(&Desk::open(1).sent(&entry(999_999))), ('A', 999_999));
    assert_eq!(
        Desk::open(1).sent(&entry(1_000_000)),
        rejected(2, "A", b'Z')
    );
    assert_eq!(Desk::open(1).sent(&entry(0)), rejected(2, "A", b'Z'));
}

#[test]
fn number_14_replace_naming_one_token_twice_is_ignored() {
    assert_eq!(Desk::worked().answer(&replace(4, "A", "A", 500)), 1);
    assert_eq!(Desk::open(1).answer(&replace(4, "A", "A", 500)), 1);
}

#[test]
fn number_15_accepted_needs_66_free_bytes() {
    let entry = O::good("A").entry(2);
    assert_eq!(Desk::open(1).with_free(65).answer(&entry), 9);
    let mut desk = Desk::open(1).with_free(66);
    assert_eq!(desk.answer(&entry), 0);
    assert_eq!(desk.held, desk.ring.len());
}
