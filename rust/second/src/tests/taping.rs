//! The purge port's readers, and entries made from its requests and from a client's messages.

use super::kit::*;
use crate::tapes::judged::{Field, PORT, of_message, of_request, places};
use crate::tapes::{Chance, request};
use crate::{Told, entry};

/// A request or a client's message, and the entry of it with the stamp 77.
struct Case {
    purge: bool,
    message: Vec<u8>,
    entry: Vec<u8>,
}

impl Case {
    fn fields(&self) -> &'static [Field] {
        if self.purge {
            of_request(self.message[0])
        } else {
            of_message(true, self.message[0])
        }
    }

    fn told(&self, message: &[u8]) -> Told {
        entry(self.purge, 77, message, &mut [0; 56])
    }
}

/// All seven, with fields of which no two are alike.
fn cases() -> Vec<Case> {
    let client = [
        O::good("A").entry(77),
        replace(77, "A", "B", 500),
        cancel(77, "A", 300),
        modify(77, "A", b'S', 300),
    ];
    let of_client = client.map(|entry| Case {
        purge: false,
        message: [&entry[..1], &entry[9..]].concat(),
        entry,
    });
    let port: [(&[u8], Vec<u8>); 3] = [
        (
            b"M\x01\x02\x03\x04ABCD      IBM1 z- \0\0",
            mass_cancel(77, b"ABCD", b"IBM1 z- "),
        ),
        (
            b"D\x05\x06\x07\x08EF\xff       ",
            firm_only(b'd', 77, b"EF\xff "),
        ),
        (b"E\0\xff\0\xffgh\0i      ", firm_only(b'n', 77, b"gh\0i")),
    ];
    let of_port = port.map(|(message, entry)| Case {
        purge: true,
        message: message.to_vec(),
        entry,
    });
    of_client.into_iter().chain(of_port).collect()
}

/// A refusal that has no place.
fn refused(answer: u8) -> Told {
    Told { answer, place: 0 }
}

#[test]
fn each_message_becomes_its_entry_and_bytes_behind_it_stay() {
    for case in cases() {
        let len = case.entry.len();
        for room in len..len + 3 {
            let mut out = vec![0x55; room];
            assert_eq!(entry(case.purge, 77, &case.message, &mut out), refused(0));
            assert_eq!(out[..len], case.entry);
            assert_eq!(out[len..], vec![0x55; room - len]);
        }
    }
}

#[test]
fn the_stamp_is_written_as_it_is_given() {
    for case in cases() {
        for stamp in [0, 86_399_999_999_999, 86_400_000_000_000, u64::MAX] {
            let mut out = [0x55; 56];
            assert_eq!(entry(case.purge, stamp, &case.message, &mut out).answer, 0);
            let mut right = case.entry.clone();
            right[1..9].copy_from_slice(&stamp.to_be_bytes());
            assert_eq!(out[..right.len()], right);
        }
    }
}

#[test]
fn a_short_buffer_is_13_and_stays_as_it_was() {
    for case in cases() {
        for room in 0..case.entry.len() {
            let mut out = vec![0x55; room];
            let told = entry(case.purge, 77, &case.message, &mut out);
            assert_eq!((told, out), (refused(13), vec![0x55; room]));
        }
    }
}

#[test]
fn length_and_type_come_first() {
    for case in cases() {
        let mut bad = case.message.clone();
        bad[1..].fill(0xff);
        let longer = [&bad[..], b"\0"].concat();
        for len in (0..=longer.len()).filter(|&len| len != bad.len()) {
            assert_eq!(case.told(&longer[..len]), refused(2));
        }
        // The other caller doesn't know the message: the two M differ in length.
        let mut out = [0x55; 56];
        assert_eq!(entry(!case.purge, 77, &bad, &mut out), refused(2));
        assert_eq!(out, [0x55; 56]);
    }
}

#[test]
fn only_the_papers_types_are_known() {
    for kind in 0..=255_u8 {
        for (purge, known) in [(true, PORT), (false, b"OUXM")] {
            let bad = |len: usize| {
                let mut message = vec![0xff; len];
                message[0] = kind;
                entry(purge, 77, &message, &mut []).answer == 3
            };
            let readable = (1..=90).filter(|&len| bad(len)).count();
            assert_eq!(readable, usize::from(known.contains(&kind)), "{kind}");
        }
    }
}

#[test]
fn every_byte_is_judged_or_carried() {
    for case in cases() {
        for place in 1..case.message.len() {
            for byte in 0..=255 {
                let mut message = case.message.clone();
                message[place] = byte;
                let mut out = [0x55; 56];
                let told = entry(case.purge, 77, &message, &mut out);
                assert_eq!(told, told_at(first_bad(&message, case.fields())));
                assert!(told.answer == 0 || out == [0x55; 56]);
            }
        }
    }
}

#[test]
fn a_refused_message_is_told_before_a_short_buffer() {
    for case in cases() {
        for place in places(case.fields()) {
            let mut bad = case.message.clone();
            bad[place] = 0xff;
            assert_eq!(entry(case.purge, 77, &bad, &mut []), told_at(Some(place)));
        }
    }
}

#[test]
fn an_account_is_blank_and_an_appendage_has_no_length() {
    let told = |account: &[u8; 6], length: u16| {
        let message = [
            b"M\0\0\0\x01ABCD",
            &account[..],
            b"IBM     ",
            &length.to_be_bytes(),
        ];
        entry(true, 77, &message.concat(), &mut [0; 21])
    };
    let blank = b"      ";
    assert_eq!(told(blank, 0), told_at(None));
    for account in [b"A     ", b"     A", &[0; 6], b"     \0", b"ACCT01"] {
        assert_eq!(told(account, 0), told_at(Some(9)));
        assert_eq!(told(account, 1), told_at(Some(9)), "the smaller place");
    }
    for length in [1, 255, 256, u16::MAX] {
        assert_eq!(told(blank, length), told_at(Some(23)));
    }
    for kind in *b"DE" {
        let message = [&[kind], &b"\0\0\0\x01ABCDx     "[..]].concat();
        assert_eq!(entry(true, 77, &message, &mut [0; 13]), told_at(Some(9)));
    }
}

/// A day by messages: what the port asks for is what the tape then does.
#[test]
fn made_entries_are_taken_by_a_step() {
    let mut desk = Desk::worked();
    let mut offered = |purge, stamp, message: &[u8]| {
        let mut made = [0; 56];
        assert_eq!(entry(purge, stamp, message, &mut made).answer, 0);
        let kind_len = crate::entry::entry_length(made[0]).unwrap();
        desk.sent(&made[..kind_len])
    };
    let request = |kind: &[u8], rest: &[u8]| [kind, b"\0\0\0\x01ABCD      ", rest].concat();
    assert_eq!(offered(true, 5, &request(b"D", b"")), b"");
    let order = O::good("B").entry(5);
    let message = [&order[..1], &order[9..]].concat();
    assert_eq!(offered(false, 5, &message), rejected(5, "B", b'a'));
    let purge = request(b"M", b"        \0\0");
    assert_eq!(offered(true, 6, &purge), canceled(6, "A", 400, b'U'));
    assert_eq!(offered(true, 7, &request(b"E", b"")), b"");
    assert_eq!(desk.blocks(), 0);
    let too_late = &mut [0; 13];
    let message = request(b"D", b"");
    assert_eq!(entry(true, u64::MAX, &message, too_late).answer, 0);
    assert_eq!(desk.told(too_late), told_at(Some(1)), "the step judges it");
}

#[test]
fn requests_are_good_and_bad_in_turn() {
    let mut chance = Chance::new(61);
    let mut answered = [0; 14];
    for _ in 0..8_000 {
        let (purge, message) = request(&mut chance);
        let mut out = [0x55; 56];
        let told = entry(purge, chance.number(), &message, &mut out);
        if told.answer == 3 {
            let fields = if purge {
                of_request(message[0])
            } else {
                of_message(true, message[0])
            };
            assert_eq!(told, told_at(first_bad(&message, fields)));
        }
        answered[usize::from(told.answer)] += 1;
    }
    for answer in [0, 2, 3] {
        assert!(answered[answer] > 500, "{answered:?}");
    }
}
