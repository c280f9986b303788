//! Hosts that convert tables of the old form wrongly in one way each, and every one is found out.
//!
//! A broken host is the second host with a fault in this one call.

mod common;

use std::ops::Range;

use compare::records::{HEADER_LEN, RECORD_LEN, number};
use compare::{Command, Difference, Host, Second};
use second::tapes::counts::{bits_at, old_form, old_len, recount, table_len};

/// Where a table has its form, its blocks, its used records and its sum.
const FORM: usize = 2;
const BLOCKS: usize = 3;
const USED: Range<usize> = 4..8;
const SUM: Range<usize> = 60..64;
/// The answers of this call.
const DONE: u8 = 0;
const NOT_SOUND: u8 = 10;
const WRONG_LENGTH: u8 = 13;

#[derive(Clone, Copy, Debug, PartialEq)]
enum Fault {
    JudgesNothing,
    JudgesNoRecord,
    JudgesUnusedRecords,
    TakesAnyForm,
    TakesTodaysForm,
    TakesASumThatIsThere,
    TakesNoBlocks,
    TakesBlocksPastTheFirms,
    AsksForTheLengthFirst,
    SaysNotSoundOfTheLength,
    TakesALongerBuffer,
    TakesTheOldLength,
    WritesBeforeAsking,
    WritesWhatItRefuses,
    CarriesTheForm,
    CarriesTheSum,
    CarriesTheBits,
    MakesNoBits,
    SetsBitsOfAllUsedRecords,
    SetsBitsOfUnusedRecords,
    SetsSpareBits,
    BeginsWithTheHighestBit,
    SumsLiable,
    WritesALittleSum,
    ClearsUnusedRecords,
    CopiesUsedRecordsOnly,
    ClearsTheBlocks,
    ClearsTheHeader,
}

const FAULTS: [Fault; 28] = [
    Fault::JudgesNothing,
    Fault::JudgesNoRecord,
    Fault::JudgesUnusedRecords,
    Fault::TakesAnyForm,
    Fault::TakesTodaysForm,
    Fault::TakesASumThatIsThere,
    Fault::TakesNoBlocks,
    Fault::TakesBlocksPastTheFirms,
    Fault::AsksForTheLengthFirst,
    Fault::SaysNotSoundOfTheLength,
    Fault::TakesALongerBuffer,
    Fault::TakesTheOldLength,
    Fault::WritesBeforeAsking,
    Fault::WritesWhatItRefuses,
    Fault::CarriesTheForm,
    Fault::CarriesTheSum,
    Fault::CarriesTheBits,
    Fault::MakesNoBits,
    Fault::SetsBitsOfAllUsedRecords,
    Fault::SetsBitsOfUnusedRecords,
    Fault::SetsSpareBits,
    Fault::BeginsWithTheHighestBit,
    Fault::SumsLiable,
    Fault::WritesALittleSum,
    Fault::ClearsUnusedRecords,
    Fault::CopiesUsedRecordsOnly,
    Fault::ClearsTheBlocks,
    Fault::ClearsTheHeader,
];

/// How many records an old table has room for.
fn records(old: &[u8]) -> usize {
    old.len().saturating_sub(HEADER_LEN) / RECORD_LEN
}

/// Whether the second host takes an old table for sound.
fn sound(old: &[u8]) -> bool {
    Second.convert(old, &mut vec![0; table_len(records(old))]) == DONE
}

/// Whether this fault takes an old table that isn't sound: where all that it doesn't judge is put right,
/// it is.
fn excuses(fault: Fault, old: &[u8]) -> bool {
    let mut shown = old.to_vec();
    let Some(header) = shown.get_mut(..HEADER_LEN) else {
        return false;
    };
    match fault {
        Fault::TakesAnyForm => header[FORM] = 0,
        Fault::TakesASumThatIsThere => header[SUM].fill(0),
        Fault::TakesBlocksPastTheFirms => header[BLOCKS] = 0,
        Fault::JudgesNoRecord if number(&header[USED]) as usize <= records(old) => {
            header[USED].fill(0);
        }
        Fault::TakesTodaysForm => shown = old_form(old),
        _ => return false,
    }
    sound(&shown)
}

/// Whether this fault takes an old table.
fn takes(fault: Fault, old: &[u8]) -> bool {
    let used = old.get(USED).map_or(0, number) as usize;
    let all_used = || {
        let mut all = old.to_vec();
        all[USED].copy_from_slice(&(records(old) as u32).to_be_bytes());
        all
    };
    match fault {
        Fault::JudgesNothing => old.len() == old_len(records(old)) && records(old) > 0,
        Fault::JudgesUnusedRecords => sound(old) && (used == records(old) || sound(&all_used())),
        Fault::TakesNoBlocks => sound(old) && old[BLOCKS] == 0,
        _ => sound(old) || excuses(fault, old),
    }
}

/// Whether this fault takes a second buffer of this length.
fn takes_length(fault: Fault, old: &[u8], len: usize) -> bool {
    let right = table_len(records(old));
    match fault {
        Fault::TakesALongerBuffer => len >= right,
        Fault::TakesTheOldLength => len == right || len == old.len(),
        _ => len == right,
    }
}

/// Rebuilds a table as the paper says, as far as the buffer goes.
fn rebuild(old: &[u8], table: &mut [u8]) {
    let records = records(old);
    let mut made = vec![0; table_len(records)];
    made[..old_len(records)].copy_from_slice(&old[..old_len(records)]);
    made[FORM] = 1;
    recount(&mut made);
    let len = table.len().min(made.len());
    table[..len].copy_from_slice(&made[..len]);
}

/// What this fault makes of a rebuilt table's bits; `before` is what stood in the buffer.
fn spoil_bits(fault: Fault, table: &mut [u8], before: &[u8]) {
    let Some(at) = bits_at(table) else {
        return;
    };
    let rows = table[HEADER_LEN..at].chunks_exact(RECORD_LEN);
    let states: Vec<u8> = rows.map(|row| row[0]).collect();
    let used = number(&table[USED]) as usize;
    let bits = &mut table[at..];
    let mut set = |place: usize| bits[place / 8] |= 1 << (place % 8);
    match fault {
        Fault::CarriesTheBits => bits.copy_from_slice(&before[at..]),
        Fault::MakesNoBits => bits.fill(0),
        Fault::SetsBitsOfAllUsedRecords => (0..used).for_each(set),
        Fault::SetsBitsOfUnusedRecords => {
            let live = (0..states.len()).filter(|&place| states[place] == b'L');
            live.for_each(set);
        }
        Fault::SetsSpareBits => (states.len()..8 * (before.len() - at)).for_each(&mut set),
        Fault::BeginsWithTheHighestBit => {
            bits.iter_mut().for_each(|byte| *byte = byte.reverse_bits());
        }
        _ => {}
    }
}

/// What this fault makes of the rest of a rebuilt table.
fn spoil(fault: Fault, table: &mut [u8], before: &[u8]) {
    let at = bits_at(table).unwrap_or(0);
    let used = number(&table[USED]) as usize;
    let unused = old_len(used)..at;
    match fault {
        Fault::CarriesTheForm => table[FORM] = 0,
        Fault::CarriesTheSum => table[SUM].fill(0),
        Fault::SumsLiable => {
            let rows = table[HEADER_LEN..unused.start].chunks_exact(RECORD_LEN);
            let live = rows.filter(|row| row[0] == b'L');
            let sum: u32 = live.map(|row| number(&row[16..20])).sum();
            table[SUM].copy_from_slice(&sum.to_be_bytes());
        }
        Fault::WritesALittleSum => table[SUM].reverse(),
        Fault::ClearsUnusedRecords => table[unused].fill(0),
        Fault::CopiesUsedRecordsOnly => table[unused.clone()].copy_from_slice(&before[unused]),
        Fault::ClearsTheBlocks => table[BLOCKS] = 0,
        Fault::ClearsTheHeader => table[8..24].fill(0),
        _ => {}
    }
}

/// A conversion with this fault.
fn convert(fault: Fault, old: &[u8], table: &mut [u8]) -> u8 {
    let before = table.to_vec();
    let right_length = takes_length(fault, old, table.len());
    if fault == Fault::AsksForTheLengthFirst && !right_length {
        return WRONG_LENGTH;
    }
    if !takes(fault, old) {
        if fault == Fault::WritesWhatItRefuses {
            let len = old.len().min(table.len());
            table[..len].copy_from_slice(&old[..len]);
        }
        return NOT_SOUND;
    }
    if !right_length {
        if fault == Fault::WritesBeforeAsking {
            rebuild(old, table);
        }
        return match fault {
            Fault::SaysNotSoundOfTheLength => NOT_SOUND,
            _ => WRONG_LENGTH,
        };
    }
    rebuild(old, table);
    if table.len() == table_len(records(old)) {
        spoil_bits(fault, table, &before);
        spoil(fault, table, &before);
    }
    DONE
}

/// The second host with this fault, or with a converter of its own that has none.
struct Broken(Option<Fault>);

impl common::Broken for Broken {
    fn convert(&self, old: &[u8], table: &mut [u8]) -> u8 {
        match self.0 {
            Some(fault) => convert(fault, old, table),
            None if !sound(old) => NOT_SOUND,
            None if table.len() != table_len(records(old)) => WRONG_LENGTH,
            None => {
                rebuild(old, table);
                DONE
            }
        }
    }
}

/// The difference that a host shows, if any.
fn difference(fault: Option<Fault>) -> Option<Box<Difference>> {
    common::difference(Broken(fault))
}

#[test]
fn every_fault_is_seen() {
    let found_out = |fault: &Fault| {
        let seen = difference(Some(*fault)).map(|seen| seen.command);
        matches!(seen, Some(Command::Convert(_)))
    };
    let unseen: Vec<Fault> = FAULTS
        .into_iter()
        .filter(|fault| !found_out(fault))
        .collect();
    assert!(unseen.is_empty(), "never seen: {unseen:?}");
}

#[test]
fn a_host_without_a_fault_shows_none() {
    assert!(difference(None).is_none());
}

#[test]
fn a_difference_tells_where_it_is() {
    for (fault, part) in [
        (Fault::JudgesNoRecord, "first in the answer"),
        (Fault::AsksForTheLengthFirst, "first in the answer"),
        (Fault::TakesALongerBuffer, "first in the answer"),
        (
            Fault::CarriesTheForm,
            "the table's header, byte 2, in the second buffer",
        ),
        (Fault::CarriesTheSum, "first in the table's header, byte 6"),
        (
            Fault::MakesNoBits,
            "first in the bits behind the records, byte 0, in the second buffer",
        ),
        (Fault::ClearsUnusedRecords, " of the table, byte 0"),
        (
            Fault::WritesBeforeAsking,
            "first in the table's header, byte 0, in the second buffer",
        ),
    ] {
        let seen = difference(Some(fault));
        let told = seen.map(|seen| seen.to_string()).unwrap_or_default();
        assert!(told.contains(part), "{fault:?}: {told}");
    }
}
