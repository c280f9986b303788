//! The answer numbers and their order: an entry at fault twice gets the earlier number.

use super::kit::*;
use crate::step;

#[test]
fn a_damaged_table_is_told_before_wrong_marks() {
    let mut desk = Desk::open(1);
    desk.table[0] = 3;
    desk.at = desk.ring.len();
    assert_eq!(desk.answer(b""), 10);
}

#[test]
fn wrong_marks_are_told_before_a_wrong_kind() {
    let wrong = [
        (4_096, 0),
        (0, 4_097),
        (usize::MAX, 0),
        (0, usize::MAX),
        (usize::MAX, usize::MAX),
    ];
    for (at, held) in wrong {
        let mut desk = Desk::open(1);
        (desk.at, desk.held) = (at, held);
        assert_eq!(desk.answer(b"?"), 11, "at {at} held {held}");
    }
    let mut desk = Desk::open(1);
    (desk.at, desk.held) = (4_095, 4_096);
    assert_eq!(
        desk.answer(b"?"),
        2,
        "the last place and a full ring are right"
    );
}

#[test]
fn ring_lengths_from_80_to_65_536_are_right() {
    for (len, answer) in [(0, 11), (79, 11), (80, 0), (65_536, 0), (65_537, 11)] {
        let mut desk = Desk::before_open(1).with_ring(len);
        assert_eq!(desk.answer(&system(1, b'S')), answer, "length {len}");
    }
}

#[test]
fn kind_and_length_come_before_stamp_and_token() {
    let mut desk = Desk::open(1);
    for entry in [
        O::good("A").entry(2),
        replace(2, "A", "B", 1),
        cancel(2, "A", 1),
        modify(2, "A", b'S', 1),
        execution(2, "A", 1),
        book_cancel(2, "A", 1),
        self_match(2, "A", 1),
        priority(2, "A", 1),
        token_only(b'l', 2, "A"),
        token_only(b'f', 2, "A"),
        system(2, b'S'),
        halt(2, b"IBM     ", b'H'),
        mass_cancel(2, b"ABCD", b"IBM     "),
        firm_only(b'd', 2, b"ABCD"),
        firm_only(b'n', 2, b"ABCD"),
    ] {
        let bad_stamp = [&entry[..1], &[0xff; 8], &entry[9..]].concat();
        assert_eq!(desk.answer(&bad_stamp), 3);
        assert_eq!(desk.answer(&bad_stamp[..entry.len() - 1]), 2);
        assert_eq!(desk.answer(&[&bad_stamp[..], b" "].concat()), 2);
        assert_eq!(desk.answer(&entry[..1]), 2);
    }
    assert_eq!(desk.answer(b""), 2);
}

#[test]
fn only_the_fifteen_kinds_are_known() {
    let mut desk = Desk::open(1);
    for kind in 0..=255_u8 {
        let known = b"OUXMecqplfshwdn".contains(&kind);
        let answers: Vec<u8> = (0..100)
            .map(|len| {
                let mut entry = vec![0xff; len];
                entry.splice(..len.min(1), [kind]);
                entry.truncate(len);
                desk.answer(&entry)
            })
            .collect();
        let readable = answers.iter().filter(|&&answer| answer == 3).count();
        assert_eq!(readable, usize::from(known), "kind {kind}");
    }
}

#[test]
fn lengths_are_the_papers() {
    let mut desk = Desk::open(1);
    let lengths = [
        (b'O', 56),
        (b'U', 55),
        (b'X', 27),
        (b'M', 28),
        (b'e', 40),
        (b'c', 28),
        (b'q', 36),
        (b'p', 27),
        (b'l', 23),
        (b'f', 23),
        (b's', 10),
        (b'h', 18),
        (b'w', 21),
        (b'd', 13),
        (b'n', 13),
    ];
    for (kind, len) in lengths {
        let mut entry = vec![0xff; len];
        entry[0] = kind;
        assert_eq!(desk.answer(&entry), 3, "kind {}", char::from(kind));
    }
}

#[test]
fn a_bad_letter_comes_before_a_low_stamp() {
    let mut desk = Desk::open(1);
    assert_eq!(desk.sent(&O::good("A").entry(9))[0], b'A');
    assert_eq!(
        desk.answer(
            &O {
                side: b'X',
                ..O::good("B")
            }
            .entry(8)
        ),
        3
    );
    assert_eq!(desk.answer(&O::good("B").entry(8)), 4);
    assert_eq!(
        desk.answer(&O::good("A").entry(8)),
        4,
        "before a used token"
    );
    assert_eq!(
        desk.answer(&O::good("A").entry(9)),
        1,
        "an equal stamp isn't below"
    );
}

#[test]
fn stamps_end_with_the_day() {
    let last = 86_399_999_999_999;
    assert_eq!(Desk::before_open(1).answer(&system(last, b'S')), 0);
    assert_eq!(Desk::before_open(1).answer(&system(last + 1, b'S')), 3);
    assert_eq!(Desk::worked().answer(&O::good("B").entry(last + 1)), 3);
    assert_eq!(Desk::worked().answer(&O::good("B").entry(last)), 0);
}

#[test]
fn refused_and_ignored_entries_do_not_move_the_last_stamp() {
    let mut desk = Desk::worked();
    assert_eq!(desk.answer(&cancel(50, "A", 500)), 1);
    assert_eq!(desk.answer(&execution(60, "A", 401)), 6);
    assert_eq!(desk.answer(&cancel(3, "A", 499)), 0);
}

#[test]
fn tokens_hold_letters_digits_and_spaces() {
    for byte in 0..=255_u8 {
        let legal = byte == b' ' || byte.is_ascii_digit() || byte.is_ascii_alphabetic();
        for place in [9, 22] {
            let mut entry = cancel(4, "A", 300);
            entry[place] = byte;
            assert_eq!(
                Desk::worked().answer(&entry) == 3,
                !legal,
                "byte {byte} at {place}"
            );
        }
    }
    let spaces = O::good("").entry(2);
    assert_eq!(
        Desk::open(1).sent(&spaces)[0],
        b'A',
        "all spaces is a token"
    );
}

#[test]
fn both_tokens_of_a_replace_are_judged() {
    for (place, answer) in [(9, 3), (22, 3), (23, 3), (36, 3)] {
        let mut entry = replace(4, "A", "B", 500);
        entry[place] = b'-';
        assert_eq!(Desk::worked().answer(&entry), answer, "place {place}");
    }
}

#[test]
fn letters_are_judged_where_the_paper_names_them() {
    let cases: [(Vec<u8>, usize, &[u8]); 9] = [
        (O::good("B").entry(4), 23, b"BSTE"),
        (O::good("B").entry(4), 50, b"YNy"),
        (replace(4, "A", "B", 500), 50, b"YNy"),
        (modify(4, "A", b'S', 300), 23, b"BSTE"),
        (execution(4, "A", 1), 31, b"AROMCLHKJmkV"),
        (self_match(4, "A", 1), 35, b"AROMCLHKJmkV"),
        (book_cancel(4, "A", 1), 27, b"ITSDZE"),
        (system(4, b'S'), 9, b"SE"),
        (halt(4, b"IBM     ", b'H'), 17, b"TH"),
    ];
    for (mut entry, place, legal) in cases {
        for letter in 0..=255_u8 {
            entry[place] = letter;
            let refused = Desk::worked().answer(&entry) == 3;
            assert_eq!(
                refused,
                !legal.contains(&letter),
                "{} {letter}",
                char::from(entry[0])
            );
        }
    }
}

#[test]
fn display_cross_and_capacity_are_not_letters_of_answer_3() {
    let odd = O {
        display: 0xff,
        cross: 0xff,
        capacity: 0xff,
        ..O::good("B")
    };
    assert_eq!(Desk::worked().sent(&odd.entry(4)), rejected(4, "B", b'R'));
}

#[test]
fn p_judges_its_price_before_the_stamp() {
    for (price, answer) in [
        (0, 3),
        (1, 0),
        (1_999_999_900, 0),
        (1_999_999_901, 3),
        (2_147_483_647, 3),
    ] {
        assert_eq!(
            Desk::worked().answer(&priority(4, "A", price)),
            answer,
            "price {price}"
        );
    }
    assert_eq!(Desk::worked().answer(&priority(1, "A", 0)), 3);
}

#[test]
fn ignored_comes_before_a_full_table_and_a_full_ring() {
    let mut desk = Desk::open(1);
    assert_eq!(desk.sent(&O::good("A").entry(2))[0], b'A');
    let mut desk = desk.with_free(0);
    assert_eq!(desk.answer(&O::good("A").entry(3)), 1);
    assert_eq!(desk.answer(&replace(3, "A", "A", 400)), 1);
    assert_eq!(
        desk.answer(&O::good("B").entry(3)),
        8,
        "a full table comes before a full ring"
    );
    assert_eq!(desk.answer(&replace(3, "A", "B", 400)), 8);
    assert_eq!(desk.answer(&cancel(3, "A", 400)), 9);
}

#[test]
fn not_live_comes_before_the_moment_and_that_before_shares() {
    let mut desk = Desk::worked();
    desk.sent(&system(4, b'E'));
    let mut desk = desk.with_free(0);
    for entry in [
        execution(4, "Z", 0),
        self_match(4, "Z", 0),
        priority(4, "Z", 1),
        token_only(b'l', 4, "Z"),
    ] {
        assert_eq!(desk.answer(&entry), 5);
    }
    for entry in [
        execution(4, "A", 0),
        self_match(4, "A", 0),
        priority(4, "A", 1),
        token_only(b'l', 4, "A"),
    ] {
        assert_eq!(desk.answer(&entry), 7);
    }
    assert_eq!(
        desk.answer(&book_cancel(4, "A", 0)),
        6,
        "a book cancel has no moment"
    );
    assert_eq!(desk.answer(&token_only(b'f', 4, "Z")), 5);
    assert_eq!(desk.answer(&token_only(b'f', 4, "A")), 7);
}

#[test]
fn wrong_shares_come_before_a_full_ring() {
    let mut desk = Desk::worked().with_free(0);
    for (shares, answer) in [(0, 6), (401, 6), (u32::MAX, 6), (400, 9), (1, 9)] {
        assert_eq!(desk.answer(&execution(4, "A", shares)), answer);
        assert_eq!(desk.answer(&book_cancel(4, "A", shares)), answer);
        assert_eq!(desk.answer(&self_match(4, "A", shares)), answer);
    }
}

#[test]
fn the_last_reference_is_never_given() {
    let end = 1_000_000_000_000_000_000_u64;
    let mut desk = Desk::worked();
    desk.table[16..24].copy_from_slice(&end.to_be_bytes());
    let mut full = desk.clone().with_free(0);
    for entry in [
        O::good("B").entry(4),
        replace(4, "A", "B", 500),
        priority(4, "A", 1),
    ] {
        assert_eq!(desk.answer(&entry), 8);
        assert_eq!(full.answer(&entry), 8, "before a full ring");
    }
    let rejected_order = O {
        shares: 0,
        ..O::good("B")
    };
    assert_eq!(
        desk.sent(&rejected_order.entry(4)),
        rejected(4, "B", b'Z'),
        "needs no reference"
    );
    assert_eq!(
        desk.sent(&replace(4, "A", "C", 100)),
        canceled(4, "A", 400, b'U')
    );

    let mut desk = Desk::worked();
    desk.table[16..24].copy_from_slice(&(end - 1).to_be_bytes());
    assert_eq!(number(&desk.sent(&O::good("B").entry(4))[49..57]), end - 1);
    assert_eq!(desk.next_reference(), end);
}

/// Each message at exactly its length of room, and one byte less.
#[test]
fn every_message_needs_its_whole_length() {
    let mut pending = Desk::late();
    assert_eq!(pending.sent(&cancel(4, "A", 0))[0], b'P');
    let cases = [
        (Desk::before_open(1), system(5, b'S'), 10),
        (Desk::open(1), O::good("A").entry(5), 66),
        (Desk::before_open(1), O::good("A").entry(5), 24),
        (Desk::worked(), replace(5, "A", "B", 500), 80),
        (Desk::worked(), replace(5, "A", "B", 0), 28),
        (Desk::late(), replace(5, "A", "B", 500), 24),
        (Desk::worked(), cancel(5, "A", 0), 28),
        (Desk::late(), cancel(5, "A", 0), 23),
        (Desk::late(), cancel(5, "A", 1), 23),
        (Desk::worked(), modify(5, "A", b'S', 300), 28),
        (Desk::worked(), execution(5, "A", 1), 40),
        (Desk::worked(), book_cancel(5, "A", 1), 28),
        (Desk::worked(), self_match(5, "A", 1), 37),
        (Desk::worked(), priority(5, "A", 1), 36),
        (pending, token_only(b'f', 5, "A"), 28),
        (Desk::worked(), mass_cancel(5, b"ABCD", b"        "), 28),
    ];
    for (desk, entry, len) in cases {
        let kind = char::from(entry[0]);
        assert_eq!(
            desk.clone().with_free(len - 1).answer(&entry),
            9,
            "{kind} {len}"
        );
        let mut desk = desk.with_free(len);
        assert_eq!(desk.answer(&entry), 0, "{kind} {len}");
        assert_eq!(desk.held, desk.ring.len());
    }
}

#[test]
fn entries_without_a_message_need_no_room() {
    let mut desk = Desk::worked_as(O {
        cross: b'O',
        ..O::good("A")
    })
    .with_free(0);
    assert_eq!(desk.answer(&token_only(b'l', 4, "A")), 0);
    assert_eq!(desk.flags(0), 1);
    assert_eq!(desk.answer(&token_only(b'f', 4, "A")), 0);
    assert_eq!(desk.flags(0), 0);
    assert_eq!(desk.answer(&halt(4, b"IBM     ", b'H')), 0);
    assert_eq!(desk.answer(&firm_only(b'd', 4, b"ABCD")), 0);
    assert_eq!(desk.answer(&firm_only(b'n', 4, b"ABCD")), 0);
    assert_eq!(desk.held, desk.ring.len());
}

#[test]
fn an_empty_table_ring_and_list_are_refused_quietly() {
    let (mut at, mut held) = (usize::MAX, usize::MAX);
    let told = step(&mut [], &mut [], &mut at, &mut held, &mut [], &[]);
    assert_eq!((told.answer, told.place), (10, 0));
    assert_eq!((at, held), (usize::MAX, usize::MAX));
}
