//! Tokens: a token is all of its fourteen bytes, whichever of them differ.

use super::kit::*;

/// A client's token, and others that share its first nine characters, its last nine, or all but one.
const FIRST: &str = "CLIENT00700001";
const OTHERS: [&str; 6] = [
    "CLIENT00700002",
    "CLIENT00710001",
    "DLIENT00700001",
    "00000T00700001",
    "CLIENT00800001",
    "CLIENT 0700001",
];

#[test]
fn tokens_that_are_nearly_alike_are_orders_of_their_own() {
    let mut desk = Desk::open(8);
    for name in [FIRST].into_iter().chain(OTHERS) {
        assert_eq!(desk.sent(&O::good(name).entry(2))[0], b'A');
        assert_eq!(desk.answer(&O::good(name).entry(2)), 1);
    }
    assert_eq!(desk.used(), 7);
    for (place, name) in OTHERS.into_iter().enumerate() {
        assert_eq!(desk.sent(&cancel(3, name, 0)), canceled(3, name, 500, b'U'));
        assert_eq!(desk.shares(1 + place).0, 'D');
        assert_eq!(desk.shares(0), ('L', 500, 0, 0));
    }
}

#[test]
fn a_token_that_is_nearly_used_is_not_live() {
    let mut desk = Desk::open(8);
    desk.sent(&O::good(FIRST).entry(2));
    for name in OTHERS {
        assert_eq!(desk.answer(&cancel(3, name, 0)), 1);
        assert_eq!(desk.answer(&execution(3, name, 1)), 5);
    }
}
