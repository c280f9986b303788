//! The comparison's own test: hosts that are wrong in one way each, and every one is found out.
//!
//! A broken host is the second host with one fault switched on: the errors that students really
//! make, and faults so small that only a comparison of every byte shows them.

use std::cell::Cell;

use compare::records::{HEADER_LEN, RECORD_LEN, number, row};
use compare::{Beside, Difference, Driver, Host, Proved, Second, Status, Told};
use pilaqsevi::Marks;
use second::tapes::judged::{Field, Judged, of_entry, of_message};

/// The entries within which each fault must show.
const ENTRIES: u64 = 20_000;
const SEED: u64 = 3;

/// Where things stand in tables and entries, as the paper counts.
const FLAGS_AT: usize = 64;
const BLOCKS_AT: usize = 3;
const ENTRY_SHARES: std::ops::Range<usize> = 37..41;

#[derive(Clone, Copy, Debug, PartialEq)]
enum Fault {
    DropsTheOldest,
    WritesHalfOfOne,
    StoresTheTokenFirst,
    TakesReplaceSharesForExposure,
    UsesUpTheReplacementToken,
    LetsACancelRaise,
    MovesTheStampWhenIgnoring,
    ForgetsUnjudgedFlags,
    ClearsTheNextRecord,
    TouchesOneRingByte,
    MovesMarksWhenRefusing,
    AsksForMarksBeforeTheTable,
    ReadsTheEntryBeforeTheMarks,
    ReleasesOneTooMany,
    ForgetsToWrapThePlace,
    ReadsAcrossTheEnd,
    TakesNineFirms,
    LeavesUnusedRecords,
    LeavesTheBlocks,
    ClearsBehindTheMessage,
    WritesBeforeAskingForRoom,
    TellsATokensFirstByte,
    TellsTheLastBadField,
    JudgesTokensBeforeTheStamp,
    PointsIntoAStamp,
    CountsFromBehindTheKind,
    CountsWithoutTheStamp,
    CountsAMessageAsAnEntry,
    TellsAPlaceInAWrongLength,
    KeepsThePlaceWithTheNextAnswer,
}

const FAULTS: [Fault; 21] = [
    Fault::DropsTheOldest,
    Fault::WritesHalfOfOne,
    Fault::StoresTheTokenFirst,
    Fault::TakesReplaceSharesForExposure,
    Fault::UsesUpTheReplacementToken,
    Fault::LetsACancelRaise,
    Fault::MovesTheStampWhenIgnoring,
    Fault::ForgetsUnjudgedFlags,
    Fault::ClearsTheNextRecord,
    Fault::TouchesOneRingByte,
    Fault::MovesMarksWhenRefusing,
    Fault::AsksForMarksBeforeTheTable,
    Fault::ReadsTheEntryBeforeTheMarks,
    Fault::ReleasesOneTooMany,
    Fault::ForgetsToWrapThePlace,
    Fault::ReadsAcrossTheEnd,
    Fault::TakesNineFirms,
    Fault::LeavesUnusedRecords,
    Fault::LeavesTheBlocks,
    Fault::ClearsBehindTheMessage,
    Fault::WritesBeforeAskingForRoom,
];

/// Those that get nothing wrong but the place.
const MISPLACED: [Fault; 9] = [
    Fault::TellsATokensFirstByte,
    Fault::TellsTheLastBadField,
    Fault::JudgesTokensBeforeTheStamp,
    Fault::PointsIntoAStamp,
    Fault::CountsFromBehindTheKind,
    Fault::CountsWithoutTheStamp,
    Fault::CountsAMessageAsAnEntry,
    Fault::TellsAPlaceInAWrongLength,
    Fault::KeepsThePlaceWithTheNextAnswer,
];

/// The second host with this fault, or with none.
struct Broken {
    fault: Option<Fault>,
    /// The place that was told last, for a host that doesn't write it each time.
    last_place: Cell<usize>,
}

impl Broken {
    fn new(fault: Option<Fault>) -> Broken {
        let last_place = Cell::new(0);
        Broken { fault, last_place }
    }

    fn has(&self, fault: Fault) -> bool {
        self.fault == Some(fault)
    }

    /// What a fault does to an entry before the rules see it.
    fn misread(&self, table: &[u8], entry: &[u8]) -> Vec<u8> {
        let mut entry = entry.to_vec();
        if self.has(Fault::TakesReplaceSharesForExposure) && entry.len() == 55 && entry[0] == b'U' {
            let spent = row(table, &entry[9..23]).map_or(0, |at| {
                number(&table[at + 20..at + 24]).wrapping_add(number(&table[at + 24..at + 28]))
            });
            let shares = number(&entry[ENTRY_SHARES]).wrapping_add(spent);
            entry[ENTRY_SHARES].copy_from_slice(&shares.to_be_bytes());
        }
        entry
    }

    /// What a fault does after a done step.
    fn after_done(&self, table: &mut [u8], ring: &mut [u8], marks: Marks, entry: &[u8]) {
        let used = number(&table[4..8]) as usize;
        let next = HEADER_LEN + RECORD_LEN * used;
        match self.fault {
            Some(Fault::UsesUpTheReplacementToken) if entry[0] == b'U' => {
                let replaced = row(table, &entry[23..37]).is_some();
                if let (false, Some(free)) = (replaced, table.get_mut(next..next + RECORD_LEN)) {
                    free.fill(0);
                    free[0] = b'R';
                    free[1..15].copy_from_slice(&entry[23..37]);
                    table[4..8].copy_from_slice(&(used as u32 + 1).to_be_bytes());
                }
            }
            Some(Fault::ForgetsUnjudgedFlags) => {
                if let Some(at) = entry.get(9..23).and_then(|token| row(table, token)) {
                    table[at + FLAGS_AT] &= 7;
                }
            }
            Some(Fault::ClearsTheNextRecord) => {
                if let Some(free) = table.get_mut(next..next + RECORD_LEN) {
                    free.fill(0);
                }
            }
            Some(Fault::TouchesOneRingByte) if marks.held < ring.len() => {
                ring[(marks.at + marks.held) % ring.len()] = 0;
            }
            _ => {}
        }
    }

    /// What a fault does after a blocked or ignored step; the answer may become another.
    fn after_refused(
        &self,
        answer: u8,
        desk: (&mut [u8], &mut [u8], &mut Marks, &mut [u8]),
        entry: &[u8],
    ) -> u8 {
        let (table, ring, marks, stocks) = desk;
        match (self.fault, answer) {
            (Some(Fault::DropsTheOldest), 9) => {
                marks.at = (marks.at + marks.held) % ring.len();
                marks.held = 0;
                return Second.step(table, ring, marks, stocks, entry).answer;
            }
            (Some(Fault::WritesHalfOfOne), 9) => {
                marks.held = ring.len();
                return 0;
            }
            (Some(Fault::StoresTheTokenFirst), 9) => {
                let (mut roomy, mut none) = ([0; 80], Marks::default());
                Second.step(table, &mut roomy, &mut none, stocks, entry);
            }
            (Some(Fault::LetsACancelRaise), 1) if entry[0] == b'X' => {
                if let Some(at) = row(table, &entry[9..23]) {
                    table[at + 16..at + 20].copy_from_slice(&entry[23..27]);
                }
            }
            (Some(Fault::MovesTheStampWhenIgnoring), 1) => {
                table[8..16].copy_from_slice(&entry[1..9]);
            }
            (Some(Fault::AsksForMarksBeforeTheTable), 10) if marks.at >= ring.len() => return 11,
            (Some(Fault::ReadsTheEntryBeforeTheMarks), 11) if entry.len() < 10 => return 2,
            (Some(Fault::MovesMarksWhenRefusing), 8) => marks.at = (marks.at + 1) % ring.len(),
            _ => {}
        }
        answer
    }

    /// What a fault does to the place that is told of an entry or a message.
    fn misplace(&self, told: Told, bytes: &[u8], fields: &[Field]) -> Told {
        let bad = bad_fields(bytes, fields);
        let place = match (self.fault, told.answer) {
            (Some(Fault::TellsATokensFirstByte), 3) => bad[0].at,
            (Some(Fault::TellsTheLastBadField), 3) => bad[bad.len() - 1].place,
            (Some(Fault::JudgesTokensBeforeTheStamp), 3) => {
                let token = bad.iter().find(|bad| bad.judged == Judged::Token);
                token.unwrap_or(&bad[0]).place
            }
            // As if the bytes before the first that isn't 0 weren't the stamp's.
            (Some(Fault::PointsIntoAStamp), 3) if bad[0].judged == Judged::Stamp => {
                let zeros = bytes[told.place..].iter().take_while(|&&byte| byte == 0);
                told.place + zeros.count()
            }
            (Some(Fault::CountsFromBehindTheKind), 3) => told.place - 1,
            (Some(Fault::TellsAPlaceInAWrongLength), 2) => bad.first().map_or(0, |bad| bad.place),
            (Some(Fault::KeepsThePlaceWithTheNextAnswer), other) if other != 3 => {
                self.last_place.get()
            }
            _ => told.place,
        };
        self.last_place.set(place);
        Told { place, ..told }
    }
}

/// A bad field: where it begins, where its first bad byte is, and what it is.
struct Bad {
    at: usize,
    place: usize,
    judged: Judged,
}

/// The bad ones of an entry's or a message's fields, in the order of their places.
fn bad_fields(bytes: &[u8], fields: &[Field]) -> Vec<Bad> {
    let first_byte = |good: bool| (!good).then_some(0);
    let bad = |&(at, judged): &Field| {
        let from = bytes.get(at..)?;
        let byte = match judged {
            Judged::Stamp => {
                let stamp = u64::from_be_bytes(*from.first_chunk()?);
                first_byte(stamp < 86_400_000_000_000)
            }
            Judged::Token => {
                let token: &[u8; 14] = from.first_chunk()?;
                let illegal = |&byte: &u8| byte != b' ' && !byte.is_ascii_alphanumeric();
                token.iter().position(illegal)
            }
            Judged::Letter(legal) => first_byte(legal.contains(from.first()?)),
            Judged::Price => {
                let price = u32::from_be_bytes(*from.first_chunk()?);
                first_byte((1..=1_999_999_900).contains(&price))
            }
            Judged::Blank => first_byte(from.first_chunk::<6>()? == b"      "),
            Judged::Zero => first_byte(from.first_chunk::<2>()? == &[0; 2]),
        };
        let place = at + byte?;
        Some(Bad { at, place, judged })
    };
    fields.iter().filter_map(bad).collect()
}

impl Host for Broken {
    fn fresh(&self, table: &mut [u8], threshold: u32, firms: &[[u8; 4]]) -> u8 {
        let firms = match firms {
            [eight @ .., _] if self.has(Fault::TakesNineFirms) && firms.len() == 9 => eight,
            _ => firms,
        };
        let kept = table.to_vec();
        let answer = Second.fresh(table, threshold, firms);
        match self.fault {
            Some(Fault::LeavesUnusedRecords) if answer == 0 => {
                table[HEADER_LEN..].copy_from_slice(&kept[HEADER_LEN..]);
            }
            Some(Fault::LeavesTheBlocks) if answer == 0 => table[BLOCKS_AT] = kept[BLOCKS_AT],
            _ => {}
        }
        answer
    }

    fn step(
        &self,
        table: &mut [u8],
        ring: &mut [u8],
        marks: &mut Marks,
        stocks: &mut [u8],
        entry: &[u8],
    ) -> Told {
        let entry = self.misread(table, entry);
        let mut told = Second.step(table, ring, marks, stocks, &entry);
        if told.answer == 0 {
            self.after_done(table, ring, *marks, &entry);
        } else {
            told.answer = self.after_refused(told.answer, (table, ring, marks, stocks), &entry);
        }
        let kind = entry.first().copied().unwrap_or(0);
        // An inbound message counts from its type, and its entry has a stamp there.
        if self.has(Fault::CountsWithoutTheStamp) && b"OUXM".contains(&kind) && told.place > 8 {
            told.place -= 8;
        }
        self.misplace(told, &entry, of_entry(kind))
    }

    fn read<'a>(&self, ring: &'a [u8], marks: Marks) -> &'a [u8] {
        let run = Second.read(ring, marks);
        if self.has(Fault::ReadsAcrossTheEnd) && run.len() < marks.held {
            return &ring[..marks.held.min(ring.len())];
        }
        run
    }

    fn release(&self, ring_len: usize, marks: &mut Marks, k: usize) -> u8 {
        let one_too_many = marks.held.checked_add(1) == Some(k);
        if self.has(Fault::ReleasesOneTooMany) && one_too_many {
            return Second.release(ring_len, marks, k - 1);
        }
        let at = marks.at;
        let answer = Second.release(ring_len, marks, k);
        if self.has(Fault::ForgetsToWrapThePlace) && answer == 0 && at + k == ring_len {
            marks.at = ring_len;
        }
        answer
    }

    fn echo(&self, inbound: bool, message: &[u8], out: &mut [u8]) -> Told {
        let mut told = Second.echo(inbound, message, out);
        if self.has(Fault::ClearsBehindTheMessage) && told.answer == 0 {
            out[message.len()..].fill(0);
        }
        if self.has(Fault::WritesBeforeAskingForRoom) && told.answer == 13 {
            out.copy_from_slice(&message[..out.len()]);
        }
        if self.has(Fault::CountsAMessageAsAnEntry) && inbound && told.answer == 3 {
            told.place += 8;
        }
        let letter = message.first().copied().unwrap_or(0);
        self.misplace(told, message, of_message(inbound, letter))
    }

    fn entry(&self, purge: bool, stamp: u64, message: &[u8], out: &mut [u8]) -> Told {
        Second.entry(purge, stamp, message, out)
    }

    fn convert(&self, old: &[u8], table: &mut [u8]) -> u8 {
        Second.convert(old, table)
    }

    fn status(&self, table: &[u8]) -> Status {
        Second.status(table)
    }
}

/// The difference that a host shows, if any.
fn difference(host: impl Host) -> Option<Box<Difference>> {
    Driver::drive(SEED, ENTRIES, Beside::new(host)).err()
}

#[test]
fn every_fault_is_seen() {
    let unseen: Vec<Fault> = FAULTS
        .into_iter()
        .chain(MISPLACED)
        .filter(|&fault| difference(Broken::new(Some(fault))).is_none())
        .collect();
    assert!(unseen.is_empty(), "never seen: {unseen:?}");
}

#[test]
fn a_host_without_a_fault_shows_none() {
    assert!(difference(Broken::new(None)).is_none());
}

#[test]
fn a_difference_tells_where_it_is() {
    for (fault, part) in [
        (
            Fault::MovesTheStampWhenIgnoring,
            "first in the table's header, byte",
        ),
        (Fault::MovesMarksWhenRefusing, "first in the read place"),
        (Fault::WritesHalfOfOne, "first in the answer"),
        (Fault::ReleasesOneTooMany, "first in the answer"),
        (Fault::ForgetsToWrapThePlace, "first in the read place"),
        (Fault::TouchesOneRingByte, "first in the ring, byte"),
        (
            Fault::ClearsBehindTheMessage,
            "first in the written message, byte",
        ),
        (
            Fault::TellsATokensFirstByte,
            "first in the place of the bad byte",
        ),
        (
            Fault::CountsAMessageAsAnEntry,
            "first in the place of the bad byte",
        ),
    ] {
        let seen = difference(Broken::new(Some(fault)));
        let told = seen.map(|seen| seen.to_string()).unwrap_or_default();
        assert!(told.contains(part), "{fault:?}: {told}");
    }
}

/// Such a host shows nothing else, so that it is found out by that.
#[test]
fn a_wrong_place_is_seen_as_one() {
    for fault in MISPLACED {
        let seen = difference(Broken::new(Some(fault)));
        let told = seen.map(|seen| seen.to_string()).unwrap_or_default();
        assert!(
            told.contains("the place of the bad byte"),
            "{fault:?}: {told}"
        );
    }
}

#[test]
#[cfg_attr(not(archive), ignore = "no archive of the proved functions is linked")]
fn the_proved_host_shows_no_difference() {
    let seen = difference(Proved::linked().unwrap());
    assert!(
        seen.is_none(),
        "{}",
        seen.map(|s| s.to_string()).unwrap_or_default()
    );
}
