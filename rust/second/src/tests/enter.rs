//! O: what is accepted and stored, and the order of the reject letters.

use super::kit::*;

/// An order of which no field is as in the other tests.
fn other_order() -> O {
    O {
        side: b'E',
        shares: 700,
        time_in_force: 0,
        firm: *b"EF  ",
        display: b'W',
        capacity: b'R',
        sweep: b'y',
        minimum: 699,
        cross: b'C',
        ..O::good("Tok 9z")
    }
}

#[test]
fn an_accepted_order_is_echoed() {
    let message = [
        b"A".as_slice(),
        &7_u64.to_be_bytes(),
        &token("Tok 9z"),
        b"E",
        &700_u32.to_be_bytes(),
        b"IBM     ",
        &1_234_500_u32.to_be_bytes(),
        &0_u32.to_be_bytes(),
        b"EF  W",
        &1_u64.to_be_bytes(),
        b"Ry",
        &699_u32.to_be_bytes(),
        b"CL ",
    ]
    .concat();
    assert_eq!(Desk::open(2).sent(&other_order().entry(7)), message);
}

#[test]
fn an_accepted_order_is_stored() {
    let mut desk = Desk::open(2);
    desk.sent(&other_order().entry(7));
    let record = [
        b"L".as_slice(),
        &token("Tok 9z"),
        b"E",
        &700_u32.to_be_bytes(),
        &[0; 8],
        b"IBM     ",
        &1_234_500_u32.to_be_bytes(),
        &0_u32.to_be_bytes(),
        b"EF  WRy",
        &699_u32.to_be_bytes(),
        b"C",
        &1_u64.to_be_bytes(),
        &[0; 16],
    ]
    .concat();
    assert_eq!(desk.row(0), record);
    assert_eq!((desk.used(), desk.next_reference()), (1, 2));
}

#[test]
fn references_grow_by_one_and_a_reject_takes_none() {
    let mut desk = Desk::open(4);
    assert_eq!(number(&desk.sent(&O::good("A").entry(2))[49..57]), 1);
    assert_eq!(
        desk.sent(
            &O {
                shares: 0,
                ..O::good("B")
            }
            .entry(2)
        ),
        rejected(2, "B", b'Z')
    );
    assert_eq!(number(&desk.sent(&O::good("C").entry(2))[49..57]), 2);
    assert_eq!(desk.next_reference(), 3);
}

/// An order with every fault; taking the first away uncovers the next.
#[test]
fn the_first_fault_in_the_papers_order_is_sent() {
    let all_wrong = O {
        firm: *b"NONE",
        stock: *b"        ",
        cross: b'Z',
        display: b'Z',
        price: 0,
        shares: 0,
        minimum: 1,
        ..O::good("A")
    };
    assert_eq!(
        Desk::before_open(1).sent(&all_wrong.entry(2)),
        rejected(2, "A", b'C')
    );
    let mut order = all_wrong;
    let mut expect = |letter, mend: fn(&mut O)| {
        let mut desk = Desk::open(1).with_state(b"ABCDEFGH", b'H');
        desk.sent(&firm_only(b'd', 2, b"ABCD"));
        assert_eq!(desk.sent(&order.entry(2)), rejected(2, "A", letter));
        mend(&mut order);
    };
    expect(b'L', |o| o.firm = *b"ABCD");
    expect(b'a', |o| o.firm = *b"EF  ");
    expect(b'S', |o| o.stock = *b"ZZZZ    ");
    expect(b'S', |o| o.stock = *b"ABCDEFGH");
    expect(b'H', |o| o.stock = *b"ZZZZZZZZ");
    expect(b'R', |o| o.cross = b'N');
    expect(b'D', |o| o.display = b'A');
    expect(b'X', |o| o.price = 1);
    expect(b'Z', |o| o.shares = 1);
    expect(b'N', |o| o.time_in_force = 0);
    assert_eq!(Desk::open(1).sent(&order.entry(2))[0], b'A');
}

#[test]
fn the_day_must_be_open() {
    let mut desk = Desk::before_open(4);
    assert_eq!(desk.sent(&O::good("A").entry(1)), rejected(1, "A", b'C'));
    desk.sent(&system(1, b'S'));
    assert_eq!(
        desk.answer(&O::good("A").entry(1)),
        1,
        "a rejected token stays used"
    );
    desk.sent(&system(1, b'E'));
    assert_eq!(desk.sent(&O::good("B").entry(1)), rejected(1, "B", b'C'));
    assert_eq!(
        desk.answer(&O::good("A").entry(1)),
        1,
        "used, whatever the day"
    );
}

#[test]
fn a_blank_firm_is_the_default_and_others_must_be_listed() {
    let mut desk = Desk::open(8);
    let sent = |desk: &mut Desk, name, firm| {
        desk.sent(
            &O {
                firm,
                ..O::good(name)
            }
            .entry(2),
        )
    };
    assert_eq!(sent(&mut desk, "A", *b"    ")[44..48], *b"ABCD");
    assert_eq!(desk.row(0)[44..48], *b"ABCD");
    assert_eq!(sent(&mut desk, "B", *b"EF  ")[44..48], *b"EF  ");
    for (name, firm) in [
        ("C", *b"EF\0\0"),
        ("D", [0; 4]),
        ("E", *b"ABC "),
        ("F", *b" EF "),
    ] {
        assert_eq!(sent(&mut desk, name, firm), rejected(2, name, b'L'));
    }
}

#[test]
fn stocks_are_capitals_and_then_spaces() {
    for (stock, good) in [
        (*b"A       ", true),
        (*b"ABCDEFGH", true),
        (*b"        ", false),
        (*b" A      ", false),
        (*b"A B     ", false),
        (*b"A      B", false),
        (*b"Ab      ", false),
        (*b"A1      ", false),
        (*b"A@      ", false),
        (*b"A[      ", false),
        (*b"A\0\0\0\0\0\0\0", false),
    ] {
        // Each is listed, so that it is the form that tells.
        let message = Desk::open(1).with_stocks(&[(&stock, b'T')]).sent(
            &O {
                stock,
                ..O::good("A")
            }
            .entry(2),
        );
        assert_eq!(
            message[0] == b'A',
            good,
            "{}",
            String::from_utf8_lossy(&stock)
        );
        assert!(good || message == rejected(2, "A", b'S'));
    }
}

#[test]
fn crosses_and_displays() {
    for byte in 0..=255_u8 {
        let crossed = Desk::open(1).sent(
            &O {
                cross: byte,
                ..O::good("A")
            }
            .entry(2),
        );
        assert_eq!(crossed[0] == b'A', b"NOC".contains(&byte), "cross {byte}");
        assert!(crossed[0] == b'A' || crossed[23] == b'R');
        for cross in *b"NOC" {
            let shown = Desk::open(1).sent(
                &O {
                    display: byte,
                    cross,
                    ..O::good("A")
                }
                .entry(2),
            );
            let good = b"AYNPMW".contains(&byte) || (byte == b'I' && cross != b'N');
            assert_eq!(shown[0] == b'A', good, "display {byte}");
            assert!(good || shown[23] == b'D');
        }
    }
}

#[test]
fn a_capacity_outside_a_p_r_becomes_o() {
    for byte in 0..=255_u8 {
        let mut desk = Desk::open(1);
        let message = desk.sent(
            &O {
                capacity: byte,
                ..O::good("A")
            }
            .entry(2),
        );
        let kept = if b"APR".contains(&byte) { byte } else { b'O' };
        assert_eq!((message[57], desk.row(0)[49]), (kept, kept));
    }
}

#[test]
fn a_minimum_needs_an_immediate_order_and_enough_shares() {
    for (minimum, time_in_force, good) in [
        (0, 0, true),
        (0, 5, true),
        (1, 0, true),
        (1, 1, false),
        (500, 0, true),
        (501, 0, false),
        (u32::MAX, 0, false),
    ] {
        let entry = O {
            minimum,
            time_in_force,
            ..O::good("A")
        }
        .entry(2);
        let message = Desk::open(1).sent(&entry);
        assert_eq!(
            message[0] == b'A',
            good,
            "minimum {minimum} time {time_in_force}"
        );
        assert!(good || message == rejected(2, "A", b'N'));
    }
}

#[test]
fn shares_stay_below_the_threshold() {
    for (threshold, shares, good) in [
        (1_u32, 1, false),
        (2, 1, true),
        (2, 2, false),
        (600, 599, true),
    ] {
        let mut desk = Desk::open(1);
        desk.table[24..28].copy_from_slice(&threshold.to_be_bytes());
        let message = desk.sent(
            &O {
                shares,
                ..O::good("A")
            }
            .entry(2),
        );
        assert_eq!(message[0] == b'A', good, "threshold {threshold}");
    }
}

#[test]
fn a_rejected_order_on_a_full_table_is_8() {
    let mut desk = Desk::open(1);
    desk.sent(&O::good("A").entry(2));
    assert_eq!(
        desk.answer(
            &O {
                shares: 0,
                ..O::good("B")
            }
            .entry(2)
        ),
        8
    );
}

#[test]
fn tokens_differ_by_case_and_by_their_last_character() {
    let mut desk = Desk::open(4);
    for name in [
        "abcdefghijklm1",
        "abcdefghijklm2",
        "Abcdefghijklm1",
        "abcdefghijklm",
    ] {
        assert_eq!(desk.sent(&O::good(name).entry(2))[0], b'A', "{name}");
    }
}
