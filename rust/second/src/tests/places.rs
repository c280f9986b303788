//! Which byte was bad: the place that a step tells with 3, and 0 with every other answer.

use super::kit::*;
use crate::tapes::judged::{ENTRIES, Judged, of_entry, places};
use crate::{Answer, Host, Outbox, Stocks, Told};

/// A legal entry of each kind, for a desk where "A" is live.
fn legal_entries() -> [Vec<u8>; 15] {
    [
        O::good("B").entry(4),
        replace(4, "A", "B", 500),
        cancel(4, "A", 300),
        modify(4, "A", b'S', 300),
        execution(4, "A", 1),
        book_cancel(4, "A", 1),
        self_match(4, "A", 1),
        priority(4, "A", 1),
        token_only(b'l', 4, "A"),
        token_only(b'f', 4, "A"),
        system(4, b'E'),
        halt(4, b"IBM     ", b'H'),
        mass_cancel(4, b"ABCD", b"IBM     "),
        firm_only(b'd', 4, b"ABCD"),
        firm_only(b'n', 4, b"ABCD"),
    ]
}

/// The entry with these bytes from this place on.
fn with(entry: &[u8], at: usize, bytes: &[u8]) -> Vec<u8> {
    let mut entry = entry.to_vec();
    entry[at..at + bytes.len()].copy_from_slice(bytes);
    entry
}

#[test]
fn there_is_an_entry_of_each_kind() {
    let kinds: Vec<u8> = legal_entries().iter().map(|entry| entry[0]).collect();
    assert_eq!(kinds, ENTRIES);
    for entry in legal_entries() {
        assert_ne!(Desk::worked().answer(&entry), 3);
    }
}

/// Written out once from the paper's two tables, so that the place of every field is in sight.
#[test]
fn each_judged_field_of_each_kind_tells_its_first_byte() {
    for (kind, at) in [
        (b'O', [1, 9, 23, 50].as_slice()),
        (b'U', &[1, 9, 23, 50]),
        (b'X', &[1, 9]),
        (b'M', &[1, 9, 23]),
        (b'e', &[1, 9, 31]),
        (b'c', &[1, 9, 27]),
        (b'q', &[1, 9, 35]),
        (b'p', &[1, 9, 23]),
        (b'l', &[1, 9]),
        (b'f', &[1, 9]),
        (b's', &[1, 9]),
        (b'h', &[1, 17]),
        (b'w', &[1]),
        (b'd', &[1]),
        (b'n', &[1]),
    ] {
        let entries = legal_entries();
        let entry = entries.iter().find(|entry| entry[0] == kind).unwrap();
        for &place in at {
            let told = Desk::worked().told(&with(entry, place, b"\xff"));
            assert_eq!(told, told_at(Some(place)), "{}", char::from(kind));
        }
    }
}

#[test]
fn every_byte_of_every_entry_is_judged_or_not_by_the_paper() {
    let desk = Desk::worked();
    for entry in legal_entries() {
        let fields = of_entry(entry[0]);
        for place in 1..entry.len() {
            for byte in 0..=255 {
                let damaged = with(&entry, place, &[byte]);
                let told = desk.clone().told(&damaged);
                let bad = first_bad(&damaged, fields);
                assert_eq!(told.answer == 3, bad.is_some(), "{damaged:?}");
                assert_eq!(told.place, bad.unwrap_or(0), "{damaged:?}");
            }
        }
    }
}

#[test]
fn of_two_bad_bytes_the_one_with_the_smaller_offset_is_told() {
    for entry in legal_entries() {
        let judged = places(of_entry(entry[0]));
        for &first in &judged {
            for &other in judged.iter().filter(|&&other| other > first) {
                let bad = with(&with(&entry, first, b"\xff"), other, b"\xff");
                let told = Desk::worked().told(&bad);
                assert_eq!(told, told_at(Some(first)), "{bad:?}");
            }
        }
    }
}

#[test]
fn a_token_tells_its_first_bad_character() {
    for entry in legal_entries() {
        for &(at, _) in of_entry(entry[0])
            .iter()
            .filter(|(_, judged)| *judged == Judged::Token)
        {
            for character in 0..14 {
                // All that follows is bad too, and the token's own first character isn't.
                let bad = with(&entry, at + character, &[b'_'; 14][character..]);
                let told = Desk::worked().told(&bad);
                assert_eq!(told, told_at(Some(at + character)));
            }
        }
    }
}

/// A number is bad as a whole, even where it is its last bytes that make it so.
#[test]
fn a_stamp_and_a_price_tell_their_first_byte() {
    for entry in legal_entries() {
        let late = with(&entry, 1, &86_400_000_000_000_u64.to_be_bytes());
        assert_eq!(Desk::worked().told(&late), told_at(Some(1)));
    }
    for price in [0, 1_999_999_901, u32::MAX] {
        let told = Desk::worked().told(&priority(4, "A", price));
        assert_eq!(told, told_at(Some(23)), "price {price}");
    }
}

#[test]
fn a_bad_stamp_is_told_before_a_bad_letter() {
    let bad_side = O {
        side: b'X',
        ..O::good("B")
    };
    let late = 86_400_000_000_000;
    assert_eq!(Desk::worked().told(&bad_side.entry(4)), told_at(Some(23)));
    assert_eq!(Desk::worked().told(&bad_side.entry(late)), told_at(Some(1)));
    assert_eq!(Desk::worked().told(&system(late, b'X')), told_at(Some(1)));
}

#[test]
fn a_wrong_kind_or_length_has_no_place_whatever_else_is_bad() {
    let wrong = Told {
        answer: 2,
        place: 0,
    };
    for entry in legal_entries() {
        let bad = vec![0xff; entry.len() - 1];
        let mut desk = Desk::worked();
        assert_eq!(desk.told(&bad), wrong, "no kind");
        assert_eq!(desk.told(&with(&bad, 0, &entry[..1])), wrong, "cut");
        let longer = [&entry[..1], &bad, b"\xff"].concat();
        assert_eq!(desk.told(&longer), wrong, "too long");
    }
}

#[test]
fn a_refusal_that_comes_before_has_no_place() {
    let bad = with(&O::good("B").entry(4), 9, b"-");
    let mut damaged = Desk::worked();
    damaged.table[0] = 3;
    let mut wrong_marks = Desk::worked();
    wrong_marks.at = wrong_marks.ring.len();
    let mut wrong_list = Desk::worked();
    wrong_list.stocks.pop();
    for (mut desk, answer) in [(damaged, 10), (wrong_marks, 11), (wrong_list, 14)] {
        assert_eq!(desk.told(&bad), Told { answer, place: 0 });
    }
}

/// Every other answer, one after the other; the desk itself watches their places.
#[test]
fn every_other_answer_has_place_0() {
    let full = Desk::worked().with_free(0);
    for (mut desk, entry, answer) in [
        (Desk::worked(), O::good("B").entry(4), 0),
        (Desk::worked(), O::good("A").entry(4), 1),
        (Desk::worked(), O::good("B").entry(2), 4),
        (Desk::worked(), execution(4, "Z", 1), 5),
        (Desk::worked(), halt(4, b"ZZZ     ", b'H'), 5),
        (Desk::worked(), firm_only(b'd', 4, b"    "), 15),
        (Desk::worked(), execution(4, "A", 0), 6),
        (Desk::worked(), system(4, b'S'), 7),
        (Desk::open(1), replace(4, "A", "B", 1), 1),
        (full, O::good("B").entry(4), 9),
    ] {
        assert_eq!(desk.told(&entry), Told { answer, place: 0 });
    }
    let mut one_record = Desk::open(1);
    one_record.sent(&O::good("A").entry(2));
    let answer = 8;
    let told = one_record.told(&O::good("B").entry(3));
    assert_eq!(told, Told { answer, place: 0 });
}

#[test]
fn a_kept_host_tells_the_place_too() {
    let mut desk = Desk::worked();
    let mut host = Host::load(&desk.table).unwrap();
    let mut outbox = Outbox::empty(80).unwrap();
    let mut stocks = Stocks::over(&mut desk.stocks).unwrap();
    let bad = with(&replace(4, "A", "B", 500), 30, b"*");
    let mut told = |entry: &[u8]| host.offer(&mut outbox, &mut stocks, entry);
    assert_eq!(told(&bad), told_at(Some(30)));
    assert_eq!(told(&cancel(4, "A", 0)), told_at(None));
}

/// Settings aren't an entry, so that no byte of one is told.
#[test]
fn bad_settings_have_no_place() {
    let told = Answer::BadSettings.told();
    assert_eq!((told.answer, told.place), (3, 0));
}
