//! The readers and writers of all sixteen messages, through the archive: whole, cut, damaged in
//! every byte and every way, and at random, beside the second host.

use compare::{Host, Proved, Second, Told};
use second::tapes::{Chance, message};

/// What fills a buffer before a call.
const FILL: u8 = 0x55;

/// Inbound or not, type, and what the reader answers where one byte after the other is 0xff, which
/// no token, side or sweep holds and which makes a stamp's first three bytes too high: its length
/// is the message's.
const MESSAGES: [(bool, u8, &str); 16] = [
    (
        true,
        b'O',
        "233333333333333300000000000000000000000000300000",
    ),
    (
        true,
        b'U',
        "23333333333333333333333333333000000000000030000",
    ),
    (true, b'X', "2333333333333330000"),
    (true, b'M', "23333333333333330000"),
    (false, b'S', "2333000000"),
    (
        false,
        b'A',
        "233300000333333333333330000000000000000000000000000000000000000000",
    ),
    (
        false,
        b'U',
        "23330000033333333333333000000000000000000000000000000000000000000333333333333330",
    ),
    (false, b'C', "2333000003333333333333300000"),
    (false, b'D', "2333000003333333333333300000000000000"),
    (false, b'E', "2333000003333333333333300000000000000000"),
    (false, b'B', "23330000033333333333333000000000"),
    (false, b'J', "233300000333333333333330"),
    (false, b'P', "23330000033333333333333"),
    (false, b'I', "23330000033333333333333"),
    (false, b'T', "233300000333333333333330000000000000"),
    (false, b'M', "2333000003333333333333300000"),
];

/// An example with another letter in every place, so that a field out of its place would show; a
/// legal side and sweep, or a legal stamp.
fn example(inbound: bool, letter: u8, length: usize) -> Vec<u8> {
    let letters = (b'A'..=b'Z').chain(b'a'..=b'z').chain(b'0'..=b'9').cycle();
    let mut example: Vec<u8> = letters.take(80).collect();
    example[0] = letter;
    if inbound {
        (example[15], example[42]) = (b'B', b'Y');
    } else {
        example[1..4].fill(0);
    }
    example.truncate(length);
    example
}

/// What both hosts tell and write into a buffer of so many bytes; a refusal writes nothing, and only
/// 3 has a place.
fn alike(inbound: bool, message: &[u8], room: usize) -> (Told, Vec<u8>) {
    let proved = Proved::linked().unwrap();
    let (mut out, mut right) = (vec![FILL; room], vec![FILL; room]);
    let told = proved.echo(inbound, message, &mut out);
    assert_eq!(
        told,
        Second.echo(inbound, message, &mut right),
        "{message:?}"
    );
    assert_eq!(out, right, "{inbound} {message:?}");
    if told.answer != 0 {
        assert_eq!(out, vec![FILL; room]);
    }
    assert_eq!(told.place > 0, told.answer == 3, "{told:?}");
    (told, out)
}

#[test]
#[cfg_attr(not(archive), ignore = "no archive of the proved functions is linked")]
fn every_message_comes_back() {
    for (inbound, letter, answers) in MESSAGES {
        let length = answers.len();
        assert_eq!(pilaqsevi::message_length(inbound, letter), Some(length));
        let message = example(inbound, letter, length);
        for behind in 0..3 {
            let (told, out) = alike(inbound, &message, length + behind);
            assert_eq!((told.answer, &out[..length]), (0, message.as_slice()));
            assert_eq!(out[length..], vec![FILL; behind]);
        }
    }
}

#[test]
#[cfg_attr(not(archive), ignore = "no archive of the proved functions is linked")]
fn every_cut_message_and_every_short_buffer_is_refused() {
    for (inbound, letter, answers) in MESSAGES {
        let length = answers.len();
        let longer = example(inbound, letter, 80);
        for cut in (0..=80).filter(|&cut| cut != length) {
            assert_eq!(alike(inbound, &longer[..cut], 80).0.answer, 2);
        }
        for room in 0..length {
            assert_eq!(alike(inbound, &longer[..length], room).0.answer, 13);
        }
    }
}

#[test]
#[cfg_attr(not(archive), ignore = "no archive of the proved functions is linked")]
fn every_byte_is_damaged_in_every_way() {
    for (inbound, letter, answers) in MESSAGES {
        let whole = example(inbound, letter, answers.len());
        for (place, answer) in answers.bytes().enumerate() {
            let mut damaged = whole.clone();
            for byte in 0..=255 {
                damaged[place] = byte;
                alike(inbound, &damaged, 80);
                alike(!inbound, &damaged, 80);
            }
            let told = alike(inbound, &damaged, 80).0;
            assert_eq!(told.answer + b'0', answer);
            // An outbound message opens with its stamp, which is told from its first byte on.
            let stamp = !inbound && place < 9;
            let bad = if stamp { 1 } else { place };
            assert_eq!(told.place, if answer == b'3' { bad } else { 0 });
        }
    }
}

#[test]
#[cfg_attr(not(archive), ignore = "no archive of the proved functions is linked")]
fn messages_at_random_are_answered_alike() {
    let mut answered = [0; 14];
    for seed in 1..=4 {
        let mut chance = Chance::new(seed);
        for _ in 0..100_000 {
            let (inbound, message) = message(&mut chance);
            let room = if chance.one_in(8) {
                chance.place(80)
            } else {
                80
            };
            answered[usize::from(alike(inbound, &message, room).0.answer)] += 1;
        }
    }
    for answer in [0, 2, 3, 13] {
        assert!(answered[answer] > 10_000, "{answered:?}");
    }
}
