//! The list of stocks: which lists are good, when a wrong one is told, and what it does to O and U.

use super::kit::*;
use crate::Stocks;
use crate::tapes::{Chance, damage, good_list, sound_table};

/// What a step over this list answers to an entry of no kind: 14, or 2 where the list is good.
fn judged(list: &[u8]) -> u8 {
    let mut desk = Desk::open(1);
    desk.stocks = list.to_vec();
    let answer = desk.answer(b"");
    assert_eq!(desk.stocks, list);
    answer
}

/// A good list of so many places.
fn of_places(places: u64) -> Vec<u8> {
    let place = |number: u64| [number.to_be_bytes().as_slice(), b"H"].concat();
    (0..places).flat_map(place).collect()
}

#[test]
fn a_list_has_0_to_2_000_places() {
    for places in [0, 1, 2, 255, 1_999, 2_000] {
        assert_eq!(judged(&of_places(places)), 2, "{places}");
    }
    for places in [2_001, 2_002, 4_000, 7_282] {
        assert_eq!(judged(&of_places(places)), 14, "{places}");
    }
}

#[test]
fn a_list_is_nine_bytes_for_each_place() {
    let whole = of_places(4);
    for len in 0..=whole.len() {
        let answer = if len.is_multiple_of(9) { 2 } else { 14 };
        assert_eq!(judged(&whole[..len]), answer, "length {len}");
    }
    let longest = [of_places(2_000).as_slice(), b"T"].concat();
    assert_eq!(judged(&longest), 14);
    assert_eq!(judged(&longest[..longest.len() - 2]), 14);
    assert_eq!(judged(b"T"), 14);
    assert_eq!(judged(b"IBM     "), 14);
}

#[test]
fn symbols_are_strictly_ascending() {
    assert_eq!(judged(b"ABC     TABD     T"), 2);
    assert_eq!(judged(b"ABD     TABC     T"), 14);
    assert_eq!(judged(b"ABC     TABC     T"), 14, "equal");
    assert_eq!(
        judged(b"ABC     HABC     T"),
        14,
        "equal, whatever the state"
    );
    assert_eq!(judged(b"ABCDEFGBTABCDEFGAT"), 14, "by the last byte");
    assert_eq!(judged(b"ABCDEFGATABCDEFGBT"), 2);
    assert_eq!(judged(b"BAAAAAAATABBBBBBBT"), 14, "by the first byte");
    assert_eq!(judged(b"A       TB       TA       T"), 14);
    assert_eq!(judged(b"B       TA       TC       T"), 14);
}

#[test]
fn bytes_above_127_are_high() {
    assert_eq!(judged(b"\x7f       T\x80       T"), 2);
    assert_eq!(judged(b"\x80       T\x7f       T"), 14);
    assert_eq!(judged(b"A      \x00TA      \xffT"), 2);
    assert_eq!(judged(b"A      \xffTA      \x00T"), 14);
}

#[test]
fn a_state_is_t_or_h() {
    for byte in 0..=255_u8 {
        let answer = if b"TH".contains(&byte) { 2 } else { 14 };
        for place in [8, 17, 26] {
            let mut list = b"A       TB       HC       T".to_vec();
            list[place] = byte;
            assert_eq!(judged(&list), answer, "state {byte} at {place}");
        }
    }
}

#[test]
fn symbols_are_not_judged_otherwise() {
    for symbol in [[0; 8], [0xff; 8], *b"        ", *b" a-\n\x80\0 !"] {
        assert_eq!(judged(&listed(&[(&symbol, b'T')])), 2);
    }
}

/// 10, then 11, then 14, then what is wrong with the entry.
#[test]
fn a_wrong_list_is_told_right_after_a_wrong_ring() {
    for list in [b"IBM     t".as_slice(), b"IBM     ", &of_places(2_001)] {
        let mut desk = Desk::worked();
        desk.stocks = list.to_vec();
        let bad_side = O {
            side: b'X',
            ..O::good("B")
        };
        for entry in [
            b"".to_vec(),
            bad_side.entry(4),
            O::good("B").entry(1),
            O::good("A").entry(4),
            O::good("B").entry(4),
            execution(4, "Z", 1),
            halt(4, b"IBM     ", b'H'),
        ] {
            assert_eq!(desk.answer(&entry), 14);
        }
        desk.held = desk.ring.len() + 1;
        assert_eq!(desk.answer(b""), 11);
        assert_eq!(desk.clone().with_ring(79).answer(b""), 11);
        desk.table[0] = 3;
        assert_eq!(desk.answer(b""), 10);
    }
}

#[test]
fn a_stock_must_be_listed() {
    let mut desk = Desk::open(4).with_stocks(&[(b"IBM     ", b'T'), (b"IBMA    ", b'T')]);
    assert_eq!(desk.sent(&O::good("A").entry(2))[0], b'A');
    for (name, stock) in [("B", *b"IB      "), ("C", *b"IBMB    ")] {
        let order = O::good(name);
        let sent = desk.sent(&O { stock, ..order }.entry(2));
        assert_eq!(sent, rejected(2, name, b'S'));
    }
    assert_eq!(desk.used(), 3, "a rejected token is stored");
    let mut nothing_listed = Desk::open(1).with_stocks(&[]);
    let sent = nothing_listed.sent(&O::good("A").entry(2));
    assert_eq!(sent, rejected(2, "A", b'S'));
}

/// The last place of the longest list and the first one are found alike.
#[test]
fn a_stock_is_found_wherever_it_is_listed() {
    for at in [0, 1, 999, 1_998, 1_999] {
        let mut desk = Desk::open(2);
        let symbols = (0..2_000_usize).map(|place| {
            let letter = |digit: usize| b'A' + (place / 26_usize.pow(digit as u32) % 26) as u8;
            [
                letter(2),
                letter(1),
                letter(0),
                b' ',
                b' ',
                b' ',
                b' ',
                b' ',
            ]
        });
        let stock = symbols.clone().nth(at).unwrap();
        desk.stocks = symbols.flat_map(|s| [&s[..], b"T"].concat()).collect();
        let order = O::good("A");
        assert_eq!(desk.sent(&O { stock, ..order }.entry(2))[0], b'A', "{at}");
        let mut halted = desk.with_state(&stock, b'H');
        let order = O::good("B");
        let sent = halted.sent(&O { stock, ..order }.entry(2));
        assert_eq!(sent, rejected(2, "B", b'H'), "{at}");
    }
}

/// S comes before H, and H before R; a halted symbol of a bad form is still S.
#[test]
fn halted_is_asked_right_after_the_stock() {
    let bad_form = *b"IBm     ";
    let stocks = [(&bad_form, b'H'), (b"IBM     ", b'H')];
    let desk = Desk::open(1).with_stocks(&stocks);
    let all_wrong = O {
        stock: bad_form,
        cross: b'Z',
        display: b'Z',
        price: 0,
        shares: 0,
        ..O::good("A")
    };
    let halted = O {
        stock: *b"IBM     ",
        ..all_wrong
    };
    for (order, letter) in [
        (all_wrong, b'S'),
        (halted, b'H'),
        (
            O {
                firm: *b"NONE",
                ..halted
            },
            b'L',
        ),
        (O::good("A"), b'H'),
    ] {
        let sent = desk.clone().sent(&order.entry(2));
        assert_eq!(sent, rejected(2, "A", letter));
    }
    let mut closed = desk;
    closed.sent(&system(2, b'E'));
    assert_eq!(closed.sent(&halted.entry(2)), rejected(2, "A", b'C'));
}

#[test]
fn a_halted_enter_uses_up_its_token_and_nothing_else() {
    let mut desk = Desk::open(1).with_state(b"IBM     ", b'H');
    assert_eq!(desk.sent(&O::good("A").entry(2)), rejected(2, "A", b'H'));
    assert_eq!((desk.used(), desk.next_reference()), (1, 1));
    assert_eq!(desk.answer(&O::good("A").entry(2)), 1);
    assert_eq!(desk.answer(&O::good("B").entry(2)), 8);
}

#[test]
fn a_replace_on_a_halted_stock_is_rejected_and_uses_up_its_token() {
    let mut desk = Desk::worked().with_state(b"IBM     ", b'H');
    let order = desk.row(0).to_vec();
    let sent = desk.sent(&replace(4, "A", "B", 500));
    assert_eq!(sent, rejected(4, "B", b'H'));
    assert_eq!(desk.row(0), order, "the order is intact");
    assert_eq!((desk.row(1)[0], desk.used()), (b'R', 2));
    assert_eq!(desk.answer(&replace(4, "A", "B", 500)), 1);
    let mut desk = desk.with_state(b"IBM     ", b'T');
    assert_eq!(desk.answer(&replace(4, "A", "B", 500)), 1);
    assert_eq!(desk.sent(&replace(4, "A", "C", 500))[0], b'U');
}

/// Ignored, then C, R and H, and then bad details.
#[test]
fn a_halted_replace_comes_after_the_late_test_and_before_the_details() {
    let halted = |desk: Desk| desk.with_state(b"IBM     ", b'H');
    let bad = replace(5, "A", "B", 0);
    let mut worked = halted(Desk::worked());
    assert_eq!(worked.sent(&bad), rejected(5, "B", b'H'));
    assert_eq!(worked.shares(0), ('L', 500, 100, 0), "nothing is canceled");
    assert_eq!(halted(Desk::late()).sent(&bad), rejected(5, "B", b'R'));
    let mut closed = halted(Desk::late());
    closed.sent(&system(5, b'E'));
    assert_eq!(closed.sent(&bad), rejected(5, "B", b'C'));
    let mut ignoring = halted(Desk::worked());
    assert_eq!(ignoring.answer(&replace(5, "Z", "B", 500)), 1);
    assert_eq!(ignoring.answer(&replace(5, "A", "A", 500)), 1);
}

#[test]
fn a_halted_replace_needs_a_record_and_room() {
    let mut full = Desk::open(1);
    full.sent(&O::good("A").entry(2));
    let mut full = full.with_state(b"IBM     ", b'H').with_free(0);
    assert_eq!(full.answer(&replace(3, "A", "B", 400)), 8);
    let desk = Desk::worked().with_state(b"IBM     ", b'H');
    let entry = replace(4, "A", "B", 400);
    assert_eq!(desk.clone().with_free(23).answer(&entry), 9);
    assert_eq!(desk.with_free(24).answer(&entry), 0);
}

#[test]
fn an_unlisted_old_stock_is_not_halted() {
    for list in [&[][..], &[(b"IBMA    ", b'H')], &[(b"IB      ", b'H')]] {
        let mut desk = Desk::worked().with_stocks(list);
        assert_eq!(desk.sent(&replace(4, "A", "B", 500))[0], b'U');
        let bad = replace(4, "B", "C", 0);
        assert_eq!(desk.sent(&bad), canceled(4, "B", 400, b'U'));
    }
}

/// A stock that no order can be entered in may still be in a table made by hand, and be halted.
#[test]
fn an_old_stock_of_any_bytes_may_be_halted() {
    let odd = *b"\x80 ib\0m  ";
    let mut desk = Desk::worked().with_stocks(&[(&odd, b'H')]);
    desk.row_mut(0)[28..36].copy_from_slice(&odd);
    let sent = desk.clone().sent(&replace(4, "A", "B", 500));
    assert_eq!(sent, rejected(4, "B", b'H'));
    let mut trading = desk.with_state(&odd, b'T');
    assert_eq!(trading.sent(&replace(4, "A", "B", 500))[0], b'U');
}

/// All that the book and the client do to an order but a Replace goes on while its stock is halted.
#[test]
fn nothing_else_asks_for_the_stock() {
    let entries = [
        cancel(5, "A", 300),
        modify(5, "A", b'S', 300),
        execution(5, "A", 1),
        book_cancel(5, "A", 1),
        self_match(5, "A", 1),
        priority(5, "A", 1),
        system(5, b'E'),
        mass_cancel(5, b"ABCD", b"IBM     "),
    ];
    for entry in entries {
        for desk in [Desk::worked(), Desk::worked().with_stocks(&[])] {
            assert_eq!(desk.clone().answer(&entry), 0);
        }
        let mut halted = Desk::worked().with_state(b"IBM     ", b'H');
        assert_eq!(halted.answer(&entry), 0);
    }
    let mut late = Desk::late().with_state(b"IBM     ", b'H');
    assert_eq!(late.answer(&token_only(b'f', 5, "A")), 0);
    assert_eq!(late.answer(&token_only(b'l', 5, "A")), 0);
}

/// A list judged once more, straight from the bytes.
fn good_by_bytes(list: &[u8]) -> bool {
    let places: Vec<&[u8]> = list.chunks(9).collect();
    let whole = places.iter().all(|place| place.len() == 9);
    whole
        && places.len() < 2_001
        && places.iter().all(|place| place[8] == 84 || place[8] == 72)
        && (1..places.len()).all(|at| number(&places[at - 1][..8]) < number(&places[at][..8]))
}

#[test]
fn damaged_lists_are_judged_alike_by_two_judges() {
    let mut chance = Chance::new(51);
    let (mut good, mut wrong, mut too_long) = (0, 0, 0);
    for _ in 0..20_000 {
        let records = 1 + chance.place(5);
        let table = sound_table(&mut chance, records);
        let mut list = good_list(&mut chance, &table);
        assert!(good_by_bytes(&list));
        damage::stocks(&mut chance, &mut list);
        let judged = Stocks::over(&mut list.clone()).is_some();
        assert_eq!(judged, good_by_bytes(&list), "{list:?}");
        *(if judged { &mut good } else { &mut wrong }) += 1;
        too_long += u32::from(list.len() == 9 * 2_001);
    }
    assert!(good > 2_000 && wrong > 4_000, "good {good}, wrong {wrong}");
    assert!(too_long > 100, "{too_long}");
}

#[test]
fn lists_have_every_shape() {
    let mut chance = Chance::new(52);
    let table = sound_table(&mut chance, 4);
    let mut places: Vec<usize> = (0..4_000)
        .map(|_| good_list(&mut chance, &table).len() / 9)
        .collect();
    places.sort_unstable();
    for shape in [0, 1, 2, 3, 6, 8, 12, 1_999, 2_000] {
        assert!(places.binary_search(&shape).is_ok(), "{shape}");
    }
    assert!(places.iter().any(|places| (100..1_000).contains(places)));
    let few = places.iter().filter(|&&places| places < 40).count();
    assert!(few > 3_900, "{few} of 4,000 lists are short");
}
