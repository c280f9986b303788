//! Hosts that make entries of messages wrongly in one way each, and every one is found out.
//!
//! A broken host is the second host with a fault in this one call.

mod common;

use compare::{Command, Difference, Host, Second, Told};

/// The first stamp that isn't legal.
const DAY_END: u64 = 86_400_000_000_000;
/// Where a request has what is judged, and a Mass Cancel's whole length.
const ACCOUNT: std::ops::Range<usize> = 9..15;
const APPENDAGE: std::ops::Range<usize> = 23..25;
const MASS_CANCEL_LEN: usize = 25;
/// The answers of this call.
const DONE: u8 = 0;
const MALFORMED: u8 = 2;
const BAD_FIELD: u8 = 3;
const NO_ROOM: u8 = 13;

#[derive(Clone, Copy, Debug, PartialEq)]
enum Fault {
    TakesAnyAccount,
    TakesZerosForBlank,
    TakesAnyAppendage,
    ComparesTheLowByteOfTheLength,
    TellsTheLastBadField,
    TellsTheBadCharacter,
    CountsAsAnEntry,
    LetsAnAppendageFollow,
    TakesEitherM,
    SwapsDisableAndEnable,
    KeepsTheType,
    PutsTheReferenceIn,
    PutsTheAccountIn,
    WritesTheStampLast,
    WritesALittleStamp,
    JudgesTheStamp,
    AsksForRoomFirst,
    WantsTheExactRoom,
    AsksForTheMessagesLength,
    WritesWhatFits,
    ClearsBehindTheEntry,
    ClearsWhatItRefuses,
}

const FAULTS: [Fault; 22] = [
    Fault::TakesAnyAccount,
    Fault::TakesZerosForBlank,
    Fault::TakesAnyAppendage,
    Fault::ComparesTheLowByteOfTheLength,
    Fault::TellsTheLastBadField,
    Fault::TellsTheBadCharacter,
    Fault::CountsAsAnEntry,
    Fault::LetsAnAppendageFollow,
    Fault::TakesEitherM,
    Fault::SwapsDisableAndEnable,
    Fault::KeepsTheType,
    Fault::PutsTheReferenceIn,
    Fault::PutsTheAccountIn,
    Fault::WritesTheStampLast,
    Fault::WritesALittleStamp,
    Fault::JudgesTheStamp,
    Fault::AsksForRoomFirst,
    Fault::WantsTheExactRoom,
    Fault::AsksForTheMessagesLength,
    Fault::WritesWhatFits,
    Fault::ClearsBehindTheEntry,
    Fault::ClearsWhatItRefuses,
];

/// The second host with this fault, or with none.
struct Broken(Option<Fault>);

/// A message as this fault reads it: what it doesn't judge is shown as it should be.
fn misread(fault: Fault, purge: bool, message: &[u8]) -> (bool, Vec<u8>) {
    let mut shown = message.to_vec();
    let whole = purge && message.len() == MASS_CANCEL_LEN;
    let account = message.get(ACCOUNT).unwrap_or_default();
    match fault {
        Fault::TakesAnyAccount if purge && account.len() == 6 => shown[ACCOUNT].fill(b' '),
        Fault::TakesZerosForBlank if purge && account == [0; 6] => shown[ACCOUNT].fill(b' '),
        Fault::TakesAnyAppendage if whole => shown[APPENDAGE].fill(0),
        Fault::ComparesTheLowByteOfTheLength if whole => shown[APPENDAGE.start] = 0,
        Fault::LetsAnAppendageFollow if purge && message.first() == Some(&b'M') => {
            shown.truncate(MASS_CANCEL_LEN);
        }
        Fault::SwapsDisableAndEnable if purge => match shown.first_mut() {
            Some(kind @ b'D') => *kind = b'E',
            Some(kind @ b'E') => *kind = b'D',
            _ => {}
        },
        Fault::TakesEitherM if message.first() == Some(&b'M') => {
            return (message.len() == MASS_CANCEL_LEN, shown);
        }
        _ => {}
    }
    (purge, shown)
}

/// The place that this fault tells of a bad field.
fn misplaced(fault: Fault, purge: bool, message: &[u8], place: usize) -> usize {
    let not_blank = |&&place: &&usize| message[place] != b' ';
    let characters: Vec<usize> = ACCOUNT.collect();
    match fault {
        Fault::TellsTheLastBadField if purge && place == ACCOUNT.start => {
            let appendage = message
                .get(APPENDAGE)
                .is_some_and(|length| length != [0; 2]);
            if appendage { APPENDAGE.start } else { place }
        }
        Fault::TellsTheBadCharacter if purge && place == ACCOUNT.start => {
            *characters.iter().find(not_blank).unwrap_or(&place)
        }
        Fault::CountsAsAnEntry => place + 8,
        _ => place,
    }
}

/// What this fault makes of an entry that was made.
fn spoil(fault: Fault, purge: bool, message: &[u8], out: &mut [u8], len: usize) {
    let entry = &mut out[..len];
    match fault {
        Fault::KeepsTheType if purge => entry[0] = message[0],
        Fault::PutsTheReferenceIn if purge => entry[9..13].copy_from_slice(&message[1..5]),
        Fault::PutsTheAccountIn if purge && len == 21 => {
            entry[13..19].copy_from_slice(&message[ACCOUNT]);
        }
        Fault::WritesTheStampLast => entry[1..].rotate_left(8),
        Fault::WritesALittleStamp => entry[1..9].reverse(),
        Fault::ClearsBehindTheEntry => out[len..].fill(0),
        _ => {}
    }
}

/// The making of an entry with this fault.
fn make(fault: Fault, purge: bool, stamp: u64, message: &[u8], out: &mut [u8]) -> Told {
    let before = out.to_vec();
    let (shown_purge, shown) = misread(fault, purge, message);
    let mut told = Second.entry(shown_purge, stamp, &shown, out);
    let len = match (shown_purge, shown.first()) {
        (true, Some(b'M')) => 21,
        (true, _) => 13,
        (false, _) => shown.len() + 8,
    };
    let short = before.len() < len;
    match (fault, told.answer) {
        (_, BAD_FIELD) if short && fault == Fault::AsksForRoomFirst => {
            told = refused(NO_ROOM);
        }
        (_, BAD_FIELD) => told.place = misplaced(fault, purge, message, told.place),
        (Fault::JudgesTheStamp, DONE) if stamp >= DAY_END => told = refused(BAD_FIELD),
        (Fault::WantsTheExactRoom, DONE) if before.len() > len => told = refused(NO_ROOM),
        (Fault::AsksForTheMessagesLength, DONE) if before.len() < message.len() => {
            told = refused(NO_ROOM);
        }
        (Fault::WritesWhatFits, NO_ROOM) => {
            let mut whole = [0; 56];
            Second.entry(purge, stamp, message, &mut whole);
            out.copy_from_slice(&whole[..before.len()]);
        }
        (Fault::ClearsWhatItRefuses, MALFORMED | NO_ROOM) => out.fill(0),
        (_, DONE) => spoil(fault, purge, message, out, len),
        _ => {}
    }
    if told.answer != DONE && !matches!(fault, Fault::WritesWhatFits | Fault::ClearsWhatItRefuses) {
        out.copy_from_slice(&before);
    }
    told
}

/// An answer at the place that it has as a rule.
fn refused(answer: u8) -> Told {
    let place = usize::from(answer == BAD_FIELD);
    Told { answer, place }
}

impl common::Broken for Broken {
    fn entry(&self, purge: bool, stamp: u64, message: &[u8], out: &mut [u8]) -> Told {
        match self.0 {
            Some(fault) => make(fault, purge, stamp, message, out),
            None => Second.entry(purge, stamp, message, out),
        }
    }
}

/// The difference that a host shows, if any.
fn difference(fault: Option<Fault>) -> Option<Box<Difference>> {
    common::difference(Broken(fault))
}

#[test]
fn every_fault_is_seen() {
    let found_out = |fault: &Fault| {
        let seen = difference(Some(*fault)).map(|seen| seen.command);
        matches!(seen, Some(Command::Make(_)))
    };
    let unseen: Vec<Fault> = FAULTS
        .into_iter()
        .filter(|fault| !found_out(fault))
        .collect();
    assert!(unseen.is_empty(), "never seen: {unseen:?}");
}

#[test]
fn a_host_without_a_fault_shows_none() {
    assert!(difference(None).is_none());
}

#[test]
fn a_difference_tells_where_it_is() {
    for (fault, part) in [
        (Fault::TakesAnyAccount, "first in the answer"),
        (
            Fault::TellsTheLastBadField,
            "first in the place of the bad byte",
        ),
        (
            Fault::TellsTheBadCharacter,
            "first in the place of the bad byte",
        ),
        (Fault::KeepsTheType, "first in the made entry, byte 0"),
        (Fault::ClearsBehindTheEntry, "first in the made entry, byte"),
    ] {
        let seen = difference(Some(fault));
        let told = seen.map(|seen| seen.to_string()).unwrap_or_default();
        assert!(told.contains(part), "{fault:?}: {told}");
    }
}
