//! Entries made from a client's messages and from the purge port's requests, through the archive:
//! whole, cut, into every short buffer, damaged in every byte and every way, and at random, beside
//! the second host.

use compare::{Host, Proved, Second, Told};
use second::tapes::judged::{Field, of_message, of_request, places};
use second::tapes::{Chance, request};

/// What fills a buffer before a call, and the longest entry.
const FILL: u8 = 0x55;
const LONGEST: usize = 56;

/// Legal messages: whether it is the port's, its bytes, and the kind and the length of its entry.
const MESSAGES: [(bool, &[u8], u8, usize); 7] = [
    (true, b"M\x01\x02\x03\x04ABCD      IBM  x-1\0\0", b'w', 21),
    (true, b"D\x05\x06\x07\x08EF\xff\0      ", b'd', 13),
    (true, b"E\xff\xfe\xfd\xfc gh       ", b'n', 13),
    (
        false,
        b"OAz 09 aZ  zA1 B\0\0\0\x05IBM     \0\0\0\x01\0\0\0\x02ABCDYPN\0\0\0\x03N",
        b'O',
        56,
    ),
    (
        false,
        b"UAz 09 aZ  zA1 another token \0\0\0\x05\0\0\0\x01\0\0\0\x02YN\0\0\0\x03",
        b'U',
        55,
    ),
    (false, b"XAz 09 aZ  zA1 \0\0\x01\x02", b'X', 27),
    (false, b"MAz 09 aZ  zA1 S\0\0\x01\x02", b'M', 28),
];

/// What both hosts tell and write into a buffer of so many bytes; a refusal writes nothing, and only
/// 3 has a place.
fn alike(purge: bool, stamp: u64, message: &[u8], room: usize) -> (Told, Vec<u8>) {
    let proved = Proved::linked().unwrap();
    let (mut out, mut right) = (vec![FILL; room], vec![FILL; room]);
    let told = proved.entry(purge, stamp, message, &mut out);
    let second = Second.entry(purge, stamp, message, &mut right);
    assert_eq!(told, second, "{purge} {message:?}");
    assert_eq!(out, right, "{purge} {message:?}");
    assert!(told.answer == 0 || out == vec![FILL; room]);
    assert_eq!(told.place > 0, told.answer == 3, "{told:?}");
    (told, out)
}

fn judged(purge: bool, letter: u8) -> &'static [Field] {
    if purge {
        of_request(letter)
    } else {
        of_message(true, letter)
    }
}

#[test]
#[cfg_attr(not(archive), ignore = "no archive of the proved functions is linked")]
fn every_message_becomes_its_entry() {
    for (purge, message, kind, length) in MESSAGES {
        assert_eq!(pilaqsevi::entry_length(kind), Some(length));
        for stamp in [0, 1, 86_399_999_999_999, 86_400_000_000_000, u64::MAX] {
            for behind in 0..3 {
                let (told, out) = alike(purge, stamp, message, length + behind);
                assert_eq!((told.answer, out[0]), (0, kind));
                assert_eq!(out[1..9], stamp.to_be_bytes());
                assert_eq!(out[length..], vec![FILL; behind]);
            }
        }
    }
}

#[test]
#[cfg_attr(not(archive), ignore = "no archive of the proved functions is linked")]
fn every_cut_message_and_every_short_buffer_is_refused() {
    for (purge, message, _, length) in MESSAGES {
        let mut longer = message.to_vec();
        longer.resize(80, b' ');
        for cut in (0..=80).filter(|&cut| cut != message.len()) {
            assert_eq!(alike(purge, 7, &longer[..cut], LONGEST).0.answer, 2);
        }
        for room in 0..length {
            assert_eq!(alike(purge, 7, message, room).0.answer, 13);
        }
    }
}

#[test]
#[cfg_attr(not(archive), ignore = "no archive of the proved functions is linked")]
fn every_byte_is_damaged_in_every_way() {
    for (purge, message, ..) in MESSAGES {
        let places = places(judged(purge, message[0]));
        for place in 0..message.len() {
            let mut damaged = message.to_vec();
            for byte in 0..=255 {
                damaged[place] = byte;
                alike(purge, 7, &damaged, LONGEST);
                alike(!purge, 7, &damaged, LONGEST);
            }
            // The account is told from its first byte on, and so is the appendage's length.
            let told = alike(purge, 7, &damaged, LONGEST).0;
            let first = match (purge, place) {
                (true, 9..15) => 9,
                (true, 23..25) => 23,
                _ => place,
            };
            match (place, places.contains(&first)) {
                (0, _) => assert_eq!(told.answer, 2),
                (_, true) => assert_eq!((told.answer, told.place), (3, first)),
                (_, false) => assert_eq!(told.answer, 0),
            }
        }
    }
}

#[test]
#[cfg_attr(not(archive), ignore = "no archive of the proved functions is linked")]
fn of_two_bad_bytes_the_smaller_offset_is_told() {
    for (purge, message, ..) in MESSAGES {
        let places = places(judged(purge, message[0]));
        for &first in &places {
            for &other in places.iter().filter(|&&other| other >= first) {
                let mut bad = message.to_vec();
                (bad[first], bad[other]) = (0xff, 0xff);
                for room in [0, LONGEST] {
                    let told = alike(purge, u64::MAX, &bad, room).0;
                    assert_eq!((told.answer, told.place), (3, first));
                }
            }
        }
    }
}

#[test]
#[cfg_attr(not(archive), ignore = "no archive of the proved functions is linked")]
fn messages_at_random_are_answered_alike() {
    let mut answered = [0; 14];
    for seed in 1..=4 {
        let mut chance = Chance::new(seed);
        for _ in 0..100_000 {
            let (purge, message) = request(&mut chance);
            let room = if chance.one_in(8) {
                chance.place(LONGEST)
            } else {
                LONGEST
            };
            let (told, _) = alike(purge, chance.number(), &message, room);
            answered[usize::from(told.answer)] += 1;
        }
    }
    for answer in [0, 2, 3, 13] {
        assert!(answered[answer] > 8_000, "{answered:?}");
    }
}
