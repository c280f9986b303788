//! Tokens through the archive: each is found where it stands, in tables of every length from none to
//! many, and each is missed that a used one is but for a single character, beside the second host.

use compare::{Desk, Host, Proved, Second};
use second::tapes::counts::table_len;

/// The most orders of a table, even ones and odd ones below it.
const MOST: usize = 17;
const STAMP: [u8; 8] = 1_u64.to_be_bytes();

type Token = [u8; 14];

/// Tokens of a client that counts at the end or in front, and tokens that are one token but for a
/// character, the next one in each.
fn families() -> [fn(usize) -> Token; 3] {
    [
        |order| counted("CLIENT007", order, ""),
        |order| counted("", order, "CLIENT007"),
        |order| {
            let mut token = *b"AAAAAAAAAAAAAA";
            token[order % 14] = b'B' + (order / 14) as u8;
            token
        },
    ]
}

fn counted(front: &str, order: usize, end: &str) -> Token {
    let text = format!("{front}{order:05}{end}");
    text.as_bytes()
        .try_into()
        .expect("nine characters and five digits")
}

/// An open desk with so many live orders.
fn desk(orders: usize, token: fn(usize) -> Token) -> Desk {
    let mut desk = Desk {
        table: vec![0; table_len(MOST)],
        ring: vec![0; 80],
        stocks: b"IBM     T".to_vec(),
        ..Desk::default()
    };
    assert_eq!(Second.fresh(&mut desk.table, 1_000_000, &[*b"ABCD"]), 0);
    let rest = b"B\0\0\0\x05IBM     \0\0\0\x01\0\0\0\0ABCDYPN\0\0\0\0N";
    let start = [b"s".as_slice(), &STAMP, b"S"].concat();
    let enters = (0..orders).map(|order| [b"O", &STAMP[..], &token(order), rest].concat());
    for entry in std::iter::once(start).chain(enters) {
        assert_eq!(desk.step(&Second, &entry).answer, 0);
        desk.marks.held = 0;
    }
    desk
}

/// The answer of both hosts to a Cancel of this token, which changes the same bytes.
fn cancel(proved: &Proved, desk: &Desk, token: &Token) -> (u8, Desk) {
    let entry = [b"X", &STAMP[..], token, &[0; 4]].concat();
    let (mut by_proved, mut by_second) = (desk.clone(), desk.clone());
    let told = by_proved.step(proved, &entry);
    assert_eq!(told, by_second.step(&Second, &entry));
    assert!(by_proved == by_second);
    (told.answer, by_proved)
}

#[test]
#[cfg_attr(not(archive), ignore = "no archive of the proved functions is linked")]
fn each_token_is_found_where_it_stands() {
    let proved = Proved::linked().unwrap();
    for token in families() {
        for orders in 0..=MOST {
            let desk = desk(orders, token);
            for order in 0..MOST {
                let (answer, after) = cancel(&proved, &desk, &token(order));
                assert_eq!(answer, u8::from(order >= orders));
                let mut rows = after.table[64..].chunks_exact(80);
                let dead = rows.position(|row| row[0] == b'D');
                assert_eq!(dead, (order < orders).then_some(order));
            }
        }
    }
}

#[test]
#[cfg_attr(not(archive), ignore = "no archive of the proved functions is linked")]
fn a_token_that_differs_in_one_character_is_another() {
    let proved = Proved::linked().unwrap();
    for token in families() {
        for orders in [1, 2, MOST] {
            let desk = desk(orders, token);
            for order in 0..orders {
                for place in 0..14 {
                    let mut near = token(order);
                    near[place] = b'z';
                    assert_eq!(cancel(&proved, &desk, &near).0, 1);
                }
            }
        }
    }
}
