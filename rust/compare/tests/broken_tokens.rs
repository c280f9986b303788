//! Hosts that look a token up wrongly in one way each, and every one is found out.
//!
//! A broken host is the second host, to which the records are shown in such a way that it finds
//! what the fault would find.

mod common;

use compare::records::number;
use compare::{Desk, Difference, Second, Told};

/// The answers that are given before a token is looked for.
const NOT_LOOKED_FOR: [u8; 7] = [10, 11, 14, 2, 3, 4, 15];

type Token = [u8; 14];

#[derive(Clone, Copy, Debug, PartialEq)]
enum Fault {
    ComparesTheLastEight,
    ComparesTheFirstNine,
    LeavesOutTheFirstByte,
    LeavesOutTheLastByte,
    LeavesAGapBetweenTwoWords,
    TakesOneByteForAll,
    ComparesBackToFront,
    LooksFromTheLastRecord,
    PassesOverTheLastOfAnOddNumber,
}

const FAULTS: [Fault; 9] = [
    Fault::ComparesTheLastEight,
    Fault::ComparesTheFirstNine,
    Fault::LeavesOutTheFirstByte,
    Fault::LeavesOutTheLastByte,
    Fault::LeavesAGapBetweenTwoWords,
    Fault::TakesOneByteForAll,
    Fault::ComparesBackToFront,
    Fault::LooksFromTheLastRecord,
    Fault::PassesOverTheLastOfAnOddNumber,
];

/// The used record in which this fault finds the wanted token.
fn finds(fault: Option<Fault>, wanted: &Token, stored: &[Token]) -> Option<usize> {
    let is_it = |other: &Token| match fault {
        Some(Fault::ComparesTheLastEight) => other[6..] == wanted[6..],
        Some(Fault::ComparesTheFirstNine) => other[..9] == wanted[..9],
        Some(Fault::LeavesOutTheFirstByte) => other[1..] == wanted[1..],
        Some(Fault::LeavesOutTheLastByte) => other[..13] == wanted[..13],
        Some(Fault::LeavesAGapBetweenTwoWords) => {
            other[6..] == wanted[6..] && other[..4] == wanted[..4]
        }
        Some(Fault::TakesOneByteForAll) => other.iter().zip(wanted).any(|(a, b)| a == b),
        Some(Fault::ComparesBackToFront) => other.iter().rev().eq(wanted),
        _ => other == wanted,
    };
    match fault {
        Some(Fault::LooksFromTheLastRecord) => stored.iter().rposition(is_it),
        Some(Fault::PassesOverTheLastOfAnOddNumber) => {
            stored[..stored.len() & !1].iter().position(is_it)
        }
        _ => stored.iter().position(is_it),
    }
}

/// What the used records are shown as: each wanted token stands where the fault finds it, and
/// nowhere else.
fn shown(fault: Option<Fault>, wanted: &[Token], stored: &[Token]) -> Vec<Token> {
    let mut shown = stored.to_vec();
    for (place, token) in shown.iter_mut().enumerate() {
        if wanted.contains(token) {
            *token = hidden(place);
        }
    }
    for token in wanted {
        if let Some(place) = finds(fault, token, stored) {
            shown[place] = *token;
        }
    }
    shown
}

/// A token of which no tape has heard.
fn hidden(place: usize) -> Token {
    let text = format!("hidden{place:08}");
    text.as_bytes()
        .try_into()
        .expect("six letters and eight digits")
}

/// The tokens that an entry names: a Replace two; h, s, w, d and n none.
fn wanted(entry: &[u8]) -> Vec<Token> {
    let places: &[usize] = match entry[0] {
        b's' | b'h' | b'w' | b'd' | b'n' => &[],
        b'U' => &[9, 23],
        _ => &[9],
    };
    let token = |&at: &usize| entry[at..at + 14].try_into().unwrap();
    places.iter().map(token).collect()
}

fn tokens(table: &mut [u8], used: usize) -> impl Iterator<Item = &mut [u8]> {
    let records = table[64..].chunks_exact_mut(80).take(used);
    records.map(|record| &mut record[1..15])
}

/// The second host's step with this fault, or with none.
fn step(fault: Option<Fault>, desk: &mut Desk, entry: &[u8]) -> Told {
    let told = desk.clone().step(&Second, entry);
    if NOT_LOOKED_FOR.contains(&told.answer) {
        return told;
    }
    let used = number(&desk.table[4..8]) as usize;
    let kept = tokens(&mut desk.table, used).map(|token| (&*token).try_into().unwrap());
    let kept: Vec<Token> = kept.collect();
    let shown = shown(fault, &wanted(entry), &kept);
    for (place, token) in tokens(&mut desk.table, used).zip(&shown) {
        place.copy_from_slice(token);
    }
    let told = desk.step(&Second, entry);
    for (place, token) in tokens(&mut desk.table, used).zip(&kept) {
        place.copy_from_slice(token);
    }
    told
}

/// The difference that a host shows, if any.
fn difference(fault: Option<Fault>) -> Option<Box<Difference>> {
    common::difference_in_steps(|desk, entry| step(fault, desk, entry))
}

#[test]
fn every_fault_is_seen() {
    let unseen: Vec<Fault> = FAULTS
        .into_iter()
        .filter(|&fault| difference(Some(fault)).is_none())
        .collect();
    assert!(unseen.is_empty(), "never seen: {unseen:?}");
}

#[test]
fn a_host_without_a_fault_shows_none() {
    assert!(difference(None).is_none());
}
