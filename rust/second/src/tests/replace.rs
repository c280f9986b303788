//! U: ignored, rejected, canceled for bad details, or replaced.

use super::kit::*;

/// 500 entered for the closing cross, 100 executed, 50 self-matched; then a Replace is sent.
fn replaced_in_a_cross() -> (Vec<u8>, Desk, Vec<u8>) {
    let first = O {
        side: b'T',
        firm: *b"EF  ",
        capacity: b'Q',
        cross: b'C',
        time_in_force: 0,
        minimum: 9,
        ..O::good("A")
    };
    let mut desk = Desk::worked_as(first);
    desk.sent(&self_match(4, "A", 50));
    let old = desk.row(0).to_vec();
    let u = U {
        time_in_force: 0,
        minimum: 350,
        display: b'I',
        price: 2_147_483_647,
        ..U::good("A", "B", 500)
    };
    let message = desk.sent(&u.entry(5));
    (old, desk, message)
}

#[test]
fn a_replaced_shows_the_new_open() {
    let message = [
        b"U".as_slice(),
        &5_u64.to_be_bytes(),
        &token("B"),
        b"T",
        &350_u32.to_be_bytes(),
        b"IBM     ",
        &2_147_483_647_u32.to_be_bytes(),
        &0_u32.to_be_bytes(),
        b"EF  I",
        &2_u64.to_be_bytes(),
        b"Oy",
        &350_u32.to_be_bytes(),
        b"CL",
        &token("A"),
        b" ",
    ]
    .concat();
    assert_eq!(replaced_in_a_cross().2, message);
}

#[test]
fn a_replacement_keeps_what_the_paper_says() {
    let record = [
        b"L".as_slice(),
        &token("B"),
        b"T",
        &500_u32.to_be_bytes(),
        &100_u32.to_be_bytes(),
        &50_u32.to_be_bytes(),
        b"IBM     ",
        &2_147_483_647_u32.to_be_bytes(),
        &0_u32.to_be_bytes(),
        b"EF  IOy",
        &350_u32.to_be_bytes(),
        b"C",
        &2_u64.to_be_bytes(),
        b"\0",
        &token("A"),
        b"\0",
    ]
    .concat();
    assert_eq!(replaced_in_a_cross().1.row(1), record);
}

#[test]
fn a_replaced_order_is_dead_and_otherwise_as_it_was() {
    let (mut old, desk, _) = replaced_in_a_cross();
    old[0] = b'D';
    old[16..20].copy_from_slice(&150_u32.to_be_bytes());
    assert_eq!(desk.row(0), old, "liable is what was spent");
}

#[test]
fn time_in_force_is_cut_as_for_an_enter() {
    let mut desk = Desk::worked();
    let message = desk.sent(
        &U {
            time_in_force: u32::MAX,
            ..U::good("A", "B", 500)
        }
        .entry(4),
    );
    assert_eq!(number(&message[40..44]), 99_999);
    assert_eq!(number(&desk.row(1)[40..44]), 99_999);
}

#[test]
fn ignored_when_the_existing_is_not_live_or_the_replacement_is_used() {
    let mut desk = Desk::worked();
    assert_eq!(desk.answer(&replace(4, "Z", "B", 500)), 1, "unknown");
    assert_eq!(desk.answer(&replace(4, "A", "A", 500)), 1, "itself");
    desk.sent(
        &O {
            shares: 0,
            ..O::good("R")
        }
        .entry(4),
    );
    assert_eq!(
        desk.answer(&replace(4, "A", "R", 500)),
        1,
        "a rejected token is used"
    );
    assert_eq!(
        desk.answer(&replace(4, "R", "B", 500)),
        1,
        "a rejected token isn't live"
    );
    desk.sent(&replace(4, "A", "B", 500));
    assert_eq!(
        desk.answer(&replace(4, "A", "C", 500)),
        1,
        "replaced, so dead"
    );
    desk.sent(&system(4, b'E'));
    assert_eq!(
        desk.answer(&replace(4, "B", "A", 500)),
        1,
        "used, whatever the day"
    );
}

#[test]
fn a_day_not_open_is_told_before_late() {
    let mut desk = Desk::late();
    desk.sent(&system(5, b'E'));
    let order = desk.row(0).to_vec();
    assert_eq!(
        desk.sent(&replace(5, "A", "B", 500)),
        rejected(5, "B", b'C')
    );
    assert_eq!(desk.row(0), order);
    assert_eq!(
        desk.answer(&O::good("B").entry(5)),
        1,
        "the replacement token is used up"
    );
    assert_eq!(desk.row(1)[0], b'R');
    assert_eq!(desk.row(1)[15..], [0; 65]);
}

/// A Replace to 500 after one change to it.
fn changed(change: fn(&mut U)) -> Vec<u8> {
    let mut u = U::good("A", "B", 500);
    change(&mut u);
    u.entry(4)
}

#[test]
fn bad_details_end_the_order() {
    let bad: [fn(&mut U); 13] = [
        |u| u.shares = 0,
        |u| u.shares = 100,
        |u| u.shares = 1_000_000,
        |u| u.shares = u32::MAX,
        |u| u.price = 0,
        |u| u.price = 1_999_999_901,
        |u| u.price = 2_147_483_647,
        |u| u.display = b'I',
        |u| u.display = b'Z',
        |u| u.minimum = 1,
        |u| (u.minimum, u.time_in_force) = (401, 0),
        |u| (u.minimum, u.time_in_force) = (500, 0),
        |u| (u.minimum, u.time_in_force) = (u32::MAX, 0),
    ];
    for (case, change) in bad.into_iter().enumerate() {
        let mut desk = Desk::worked();
        let sent = desk.sent(&changed(change));
        assert_eq!(sent, canceled(4, "A", 400, b'U'), "case {case}");
        assert_eq!(desk.shares(0), ('D', 100, 100, 0));
        assert_eq!((desk.used(), desk.next_reference()), (1, 2));
    }
}

#[test]
fn good_details_at_their_edges_replace_the_order() {
    let good: [fn(&mut U); 6] = [
        |u| u.shares = 999_999,
        |u| u.shares = 101,
        |u| u.price = 1,
        |u| u.price = 1_999_999_900,
        |u| (u.minimum, u.time_in_force) = (400, 0),
        |u| (u.minimum, u.time_in_force) = (0, 0),
    ];
    for (case, change) in good.into_iter().enumerate() {
        assert_eq!(
            Desk::worked().sent(&changed(change))[0],
            b'U',
            "case {case}"
        );
    }
}

#[test]
fn price_and_display_go_by_the_old_cross() {
    let market = changed(|u| u.price = 2_147_483_647);
    let imbalance_only = changed(|u| u.display = b'I');
    // Z is a cross that only a table made by hand has: no market price, but nothing against I.
    for (cross, market_sends, imbalance_sends) in [
        (b'O', b'U', b'U'),
        (b'C', b'U', b'U'),
        (b'N', b'C', b'C'),
        (b'Z', b'C', b'U'),
    ] {
        let mut desk = Desk::worked();
        desk.row_mut(0)[55] = cross;
        let sent = (desk.clone().sent(&market)[0], desk.sent(&imbalance_only)[0]);
        assert_eq!(sent, (market_sends, imbalance_sends), "cross {cross}");
    }
}

#[test]
fn bad_details_are_done_on_a_full_table_and_a_reject_is_8() {
    let mut desk = Desk::open(1);
    desk.sent(
        &O {
            cross: b'O',
            ..O::good("A")
        }
        .entry(2),
    );
    let mut late = desk.clone();
    assert_eq!(desk.answer(&replace(3, "A", "B", 400)), 8);
    assert_eq!(
        desk.sent(&replace(3, "A", "B", 0)),
        canceled(3, "A", 500, b'U')
    );

    late.sent(&token_only(b'l', 3, "A"));
    assert_eq!(late.answer(&replace(3, "A", "B", 400)), 8);
    let mut closed = late.clone();
    closed.sent(&system(3, b'E'));
    assert_eq!(closed.answer(&replace(3, "A", "B", 400)), 8);
}

#[test]
fn a_chain_never_executes_above_999_999() {
    let mut desk = Desk::open(4);
    desk.sent(
        &O {
            shares: 999_999,
            ..O::good("A")
        }
        .entry(2),
    );
    desk.sent(&execution(2, "A", 999_998));
    desk.sent(&replace(2, "A", "B", 999_999));
    assert_eq!(desk.shares(1), ('L', 999_999, 999_998, 0));
    assert_eq!(
        desk.sent(&replace(2, "B", "C", 1_000_000)),
        canceled(2, "B", 1, b'U')
    );
}

#[test]
fn flags_and_the_last_byte_of_the_old_record_stay_and_the_new_ones_are_zero() {
    let mut desk = Desk::worked();
    desk.row_mut(0)[64] = 0xfe;
    desk.row_mut(0)[79] = 0x55;
    assert_eq!(
        desk.sent(&replace(4, "A", "B", 500))[0],
        b'U',
        "pending isn't asked"
    );
    assert_eq!((desk.flags(0), desk.row(0)[79]), (0xfe, 0x55));
    assert_eq!((desk.flags(1), desk.row(1)[79]), (0, 0));
}

#[test]
fn a_new_record_covers_whatever_stood_there() {
    let mut desk = Desk::worked();
    (1..8).for_each(|place| desk.row_mut(place).fill(0xee));
    desk.sent(&replace(4, "A", "B", 500));
    assert_eq!(desk.row(1)[64], 0);
    assert_eq!(desk.row(1)[79], 0);
    desk.sent(
        &O {
            shares: 0,
            ..O::good("R")
        }
        .entry(4),
    );
    assert_eq!(desk.row(2)[15..], [0; 65]);
    assert_eq!(desk.row(3), [0xee; 80]);
}
