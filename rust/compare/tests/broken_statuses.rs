//! Hosts that tell a status wrongly in one way each, and every one is found out.
//!
//! A broken host is the second host with a fault in this one call.

mod common;

use compare::records::{HEADER_LEN, RECORD_LEN, number, used_records};
use compare::{Command, Desk, Difference, Host, Second, Status};
use second::tapes::counts::{bits_at, room, table_len, walked};

/// Where a table has its form and its sum.
const FORM: usize = 2;
const SUM: std::ops::Range<usize> = 60..64;
/// The answers of this call; a step gives the second, too.
const DONE: u8 = 0;
const NOT_SOUND: u8 = 10;

#[derive(Clone, Copy, Debug, PartialEq)]
enum Fault {
    WalksForTheOrders,
    WalksForTheShares,
    RefusesWhatIsNotSound,
    LeavesOutSpareBits,
    LeavesOutUnusedRecords,
    CountsTheFirstByte,
    CountsUsedRecords,
    CountsUpToTheFirstZero,
    ReadsALittleSum,
    CutsTheSum,
    SwapsTheNumbers,
    TellsNothing,
    TakesFormZero,
    TakesAnyForm,
    TakesOldTables,
    TakesOneByteMore,
    TakesOneByteLess,
    TakesOneRecordMore,
    WantsAFormOnly,
    TellsNumbersWithARefusal,
}

const FAULTS: [Fault; 20] = [
    Fault::WalksForTheOrders,
    Fault::WalksForTheShares,
    Fault::RefusesWhatIsNotSound,
    Fault::LeavesOutSpareBits,
    Fault::LeavesOutUnusedRecords,
    Fault::CountsTheFirstByte,
    Fault::CountsUsedRecords,
    Fault::CountsUpToTheFirstZero,
    Fault::ReadsALittleSum,
    Fault::CutsTheSum,
    Fault::SwapsTheNumbers,
    Fault::TellsNothing,
    Fault::TakesFormZero,
    Fault::TakesAnyForm,
    Fault::TakesOldTables,
    Fault::TakesOneByteMore,
    Fault::TakesOneByteLess,
    Fault::TakesOneRecordMore,
    Fault::WantsAFormOnly,
    Fault::TellsNumbersWithARefusal,
];

/// A status with these numbers.
fn told(live: usize, open: u32) -> Status {
    Status {
        answer: DONE,
        live,
        open: open as usize,
    }
}

/// Whether a step takes the table for sound: an empty entry and no ring tell no more.
fn sound(table: &[u8]) -> bool {
    let mut desk = Desk {
        table: table.to_vec(),
        ..Desk::default()
    };
    desk.step(&Second, b"").answer != NOT_SOUND
}

/// How many of these bits are set.
fn ones(bits: &[u8], places: std::ops::Range<usize>) -> usize {
    let set = |&place: &usize| bits[place / 8] >> (place % 8) & 1 == 1;
    places.filter(set).count()
}

/// What a walk finds.
fn walk(table: &[u8]) -> Status {
    let open: Vec<u32> = walked(table).into_iter().flatten().collect();
    let sum = open.iter().copied().fold(0, u32::wrapping_add);
    told(open.len(), sum)
}

/// What this fault tells of a table, which is told as `right`.
fn spoil(fault: Fault, table: &[u8], right: Status) -> Status {
    let at = bits_at(table).unwrap_or(0);
    let (bits, sum) = (&table[at..], number(&table[SUM]));
    let Status { live, open, .. } = right;
    let live = match fault {
        Fault::WalksForTheOrders => walk(table).live,
        Fault::LeavesOutSpareBits => ones(bits, 0..room(table.len())),
        Fault::LeavesOutUnusedRecords => ones(bits, 0..used_records(table).count()),
        Fault::CountsTheFirstByte => ones(bits, 0..8),
        Fault::CountsUsedRecords => used_records(table).count(),
        Fault::CountsUpToTheFirstZero => bits[0].trailing_ones() as usize,
        Fault::SwapsTheNumbers => open,
        Fault::TellsNothing => 0,
        _ => live,
    };
    let open = match fault {
        Fault::WalksForTheShares => walk(table).open,
        Fault::ReadsALittleSum => sum.swap_bytes() as usize,
        Fault::CutsTheSum => (sum & 0xff_ffff) as usize,
        Fault::SwapsTheNumbers => right.live,
        Fault::TellsNothing => 0,
        _ => open,
    };
    Status {
        live,
        open,
        ..right
    }
}

/// What this fault tells of what is no table.
fn refused(fault: Fault, table: &[u8], right: Status) -> Status {
    let Some(&form) = table.get(FORM) else {
        return right;
    };
    let len = table.len();
    let mut shown = table.to_vec();
    match fault {
        Fault::TakesFormZero if form == 0 => shown[FORM] = 1,
        Fault::TakesAnyForm => shown[FORM] = 1,
        Fault::TakesOldTables => {
            shown = vec![0; table_len(len.saturating_sub(HEADER_LEN) / RECORD_LEN)];
            Second.convert(table, &mut shown);
        }
        Fault::TakesOneByteMore => shown.truncate(len - 1),
        Fault::TakesOneByteLess => shown.push(0),
        Fault::TakesOneRecordMore if len == table_len(801) => shown.truncate(table_len(800)),
        Fault::WantsAFormOnly if form == 1 => {
            shown.truncate(table_len(room(len).min(800)));
        }
        Fault::TellsNumbersWithARefusal if len >= HEADER_LEN => {
            let open = number(&table[SUM]) as usize;
            return Status { open, ..right };
        }
        _ => return right,
    }
    Second.status(&shown)
}

/// The second host with this fault, or with none.
struct Broken(Option<Fault>);

impl common::Broken for Broken {
    fn status(&self, table: &[u8]) -> Status {
        let right = Second.status(table);
        match (self.0, right.answer) {
            (Some(Fault::RefusesWhatIsNotSound), DONE) if !sound(table) => Status {
                answer: NOT_SOUND,
                live: 0,
                open: 0,
            },
            (Some(fault), DONE) => spoil(fault, table, right),
            (Some(fault), _) => refused(fault, table, right),
            (None, _) => right,
        }
    }
}

/// The difference that a host shows, if any.
fn difference(fault: Option<Fault>) -> Option<Box<Difference>> {
    common::difference(Broken(fault))
}

#[test]
fn every_fault_is_seen() {
    let found_out = |fault: &Fault| {
        let seen = difference(Some(*fault)).map(|seen| seen.command);
        matches!(seen, Some(Command::Status))
    };
    let unseen: Vec<Fault> = FAULTS
        .into_iter()
        .filter(|fault| !found_out(fault))
        .collect();
    assert!(unseen.is_empty(), "never seen: {unseen:?}");
}

#[test]
fn a_host_without_a_fault_shows_none() {
    assert!(difference(None).is_none());
}

#[test]
fn a_difference_tells_where_it_is() {
    for (fault, part) in [
        (Fault::RefusesWhatIsNotSound, "first in the answer"),
        (Fault::TakesFormZero, "first in the answer"),
        (
            Fault::WalksForTheOrders,
            "first in the number of live orders",
        ),
        (
            Fault::LeavesOutSpareBits,
            "first in the number of live orders",
        ),
        (Fault::WalksForTheShares, "first in the sum of open shares"),
        (
            Fault::TellsNumbersWithARefusal,
            "first in the sum of open shares",
        ),
    ] {
        let seen = difference(Some(fault));
        let told = seen.map(|seen| seen.to_string()).unwrap_or_default();
        assert!(told.contains(part), "{fault:?}: {told}");
    }
}
