//! Which byte was bad, through the archive: every entry with each byte damaged in every way, and with
//! any two judged bytes bad at once, beside the second host.

use compare::{Desk, Host, Proved, Second, Told};
use second::tapes::counts::table_len;
use second::tapes::judged::{ENTRIES, of_entry, places};

/// A legal stamp and token, which every kind but s, h, w, d and n opens with.
const OPENING: &[u8] = b"\0\0\0\0\0\0\0\x02Az 09 aZ  zA1 ";

/// A legal entry of this kind.
fn legal(kind: u8) -> Vec<u8> {
    let rest: &[u8] = match kind {
        b'O' => b"B\0\0\0\x05IBM     \0\0\0\x01\0\0\0\0ABCDYPN\0\0\0\0N",
        b'U' => b"another token \0\0\0\x05\0\0\0\x01\0\0\0\0YN\0\0\0\0",
        b'X' => b"\0\0\0\0",
        b'M' => b"S\0\0\0\x01",
        b'e' => b"\0\0\0\x01\0\0\0\x01R\0\0\0\0\0\0\0\x07",
        b'c' => b"\0\0\0\x01T",
        b'q' => b"\0\0\0\x01\0\0\0\x01\0\0\0\x01k",
        b'p' => b"\0\0\0\x01",
        _ => b"",
    };
    match kind {
        b's' => [b"s", &OPENING[..8], b"S"].concat(),
        b'h' => [b"h", &OPENING[..8], b"IBM     T"].concat(),
        b'w' => [b"w", &OPENING[..8], b"ABCDIBM     "].concat(),
        b'd' | b'n' => [&[kind], &OPENING[..8], b"ABCD"].concat(),
        _ => [&[kind], OPENING, rest].concat(),
    }
}

/// What both hosts tell of an entry at a fresh desk.
fn alike(proved: &Proved, entry: &[u8]) -> Told {
    let mut table = vec![0; table_len(1)];
    assert_eq!(Second.fresh(&mut table, 1_000_000, &[*b"ABCD"]), 0);
    let desk = Desk {
        table,
        ring: vec![0; 80],
        stocks: b"IBM     T".to_vec(),
        ..Desk::default()
    };
    let told = desk.clone().step(proved, entry);
    assert_eq!(told, desk.clone().step(&Second, entry), "{entry:?}");
    assert_eq!(told.place > 0, told.answer == 3, "{entry:?}");
    told
}

#[test]
#[cfg_attr(not(archive), ignore = "no archive of the proved functions is linked")]
fn every_byte_of_every_kind_is_damaged_in_every_way() {
    let proved = Proved::linked().unwrap();
    for &kind in ENTRIES {
        let whole = legal(kind);
        assert_eq!(pilaqsevi::entry_length(kind), Some(whole.len()));
        assert_ne!(alike(&proved, &whole).answer, 3);
        for place in 0..whole.len() {
            let mut damaged = whole.clone();
            for byte in 0..=255 {
                damaged[place] = byte;
                alike(&proved, &damaged);
            }
        }
    }
}

#[test]
#[cfg_attr(not(archive), ignore = "no archive of the proved functions is linked")]
fn of_two_bad_bytes_the_smaller_offset_is_told() {
    let proved = Proved::linked().unwrap();
    for &kind in ENTRIES {
        let judged = places(of_entry(kind));
        for &first in &judged {
            for &other in judged.iter().filter(|&&other| other >= first) {
                let mut bad = legal(kind);
                (bad[first], bad[other]) = (0xff, 0xff);
                let told = alike(&proved, &bad);
                assert_eq!((told.answer, told.place), (3, first), "{bad:?}");
                // Nothing of it is told once the length is wrong.
                let told = alike(&proved, &bad[..bad.len() - 1]);
                assert_eq!((told.answer, told.place), (2, 0), "{bad:?}");
            }
        }
    }
}
