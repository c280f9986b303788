//! Hosts that get the bits behind the records or the sum of open shares wrong in one way each, in a step
//! or in a fresh table, and every one is found out.
//!
//! A broken host is the second host, whose right outcome is spoilt as one fault would, or to which a
//! table is shown as the fault takes it.

mod common;

use std::ops::Range;

use compare::records::{HEADER_LEN, RECORD_LEN, number, row, used_records};
use compare::{Command, Desk, Difference, Host, Second, Told};
use second::tapes::counts::{bits_at, old_len, recount, room, table_len};

/// Where a table has its form, its used records and its sum, and an entry a token and a size.
const FORM: usize = 2;
const USED: Range<usize> = 4..8;
const SUM: Range<usize> = 60..64;
const TOKEN: Range<usize> = 9..23;
const SIZE: Range<usize> = 23..27;
/// The answers that a fault turns into one another.
const DONE: u8 = 0;
const BLOCKED: u8 = 9;
const NOT_SOUND: u8 = 10;
const WRONG_RING: u8 = 11;

/// The faults: some are of an entry's kind and the type that it sends.
#[derive(Clone, Copy, Debug, PartialEq)]
enum Fault {
    KeepsTheBit(u8, u8),
    SetsNoBit(u8, u8),
    SetsABit(u8, u8),
    KeepsTheSum(u8, u8),
    CountsLateOrdersOut,
    ClearsABitTooEarly,
    LeavesTheBitAtTheOldPlace,
    ForgetsWhichByte,
    SetsSpareBits,
    AddsLiable,
    ForgetsTheReplacedOrder,
    TakesTheSizeOff,
    TakesLiableOff,
    AddsRejectedShares,
    BeginsWithTheHighestBit,
    BeginsWithTheLastByte,
    WritesALittleSum,
    CutsTheSum,
    CountsWhenBlocked,
    TakesFormZero,
    TakesAnyForm,
    TakesOldTables,
    TakesOneByteMore,
    TakesOneByteLess,
    TakesSpareBits,
    TakesUnusedBits,
    TakesDeadBits,
    TakesMissingBits,
    TakesAsManyBits,
    TakesAnySum,
    TakesAHigherSum,
    TakesALowerSum,
    CountsUnusedRecords,
    AsksForTheRingBeforeTheBits,
    LeavesTheBits,
    LeavesTheSum,
    LeavesTheForm,
    TakesTheOldLength,
    WantsTheFormBefore,
}

/// Those that a done step shows by what it writes, or by not being done.
const OF_ENTRIES: [Fault; 36] = [
    Fault::KeepsTheBit(b'e', b'E'),
    Fault::KeepsTheBit(b'q', b'D'),
    Fault::KeepsTheBit(b'c', b'C'),
    Fault::KeepsTheBit(b'X', b'C'),
    Fault::KeepsTheBit(b'w', b'C'),
    Fault::KeepsTheBit(b'f', b'C'),
    Fault::KeepsTheBit(b'U', b'C'),
    Fault::KeepsTheBit(b'U', b'U'),
    Fault::SetsNoBit(b'O', b'A'),
    Fault::SetsNoBit(b'U', b'U'),
    Fault::SetsABit(b'O', b'J'),
    Fault::SetsABit(b'U', b'J'),
    Fault::KeepsTheSum(b'O', b'A'),
    Fault::KeepsTheSum(b'U', b'U'),
    Fault::KeepsTheSum(b'U', b'C'),
    Fault::KeepsTheSum(b'X', b'C'),
    Fault::KeepsTheSum(b'M', b'M'),
    Fault::KeepsTheSum(b'e', b'E'),
    Fault::KeepsTheSum(b'q', b'D'),
    Fault::KeepsTheSum(b'c', b'C'),
    Fault::KeepsTheSum(b'w', b'C'),
    Fault::KeepsTheSum(b'f', b'C'),
    Fault::CountsLateOrdersOut,
    Fault::ClearsABitTooEarly,
    Fault::LeavesTheBitAtTheOldPlace,
    Fault::ForgetsWhichByte,
    Fault::SetsSpareBits,
    Fault::AddsLiable,
    Fault::ForgetsTheReplacedOrder,
    Fault::TakesTheSizeOff,
    Fault::TakesLiableOff,
    Fault::AddsRejectedShares,
    Fault::BeginsWithTheHighestBit,
    Fault::BeginsWithTheLastByte,
    Fault::WritesALittleSum,
    Fault::CutsTheSum,
];

/// Those that a step shows by what it takes for sound, or when it is blocked.
const OF_TABLES: [Fault; 16] = [
    Fault::CountsWhenBlocked,
    Fault::TakesFormZero,
    Fault::TakesAnyForm,
    Fault::TakesOldTables,
    Fault::TakesOneByteMore,
    Fault::TakesOneByteLess,
    Fault::TakesSpareBits,
    Fault::TakesUnusedBits,
    Fault::TakesDeadBits,
    Fault::TakesMissingBits,
    Fault::TakesAsManyBits,
    Fault::TakesAnySum,
    Fault::TakesAHigherSum,
    Fault::TakesALowerSum,
    Fault::CountsUnusedRecords,
    Fault::AsksForTheRingBeforeTheBits,
];

/// Those that a fresh table shows.
const OF_FRESH: [Fault; 5] = [
    Fault::LeavesTheBits,
    Fault::LeavesTheSum,
    Fault::LeavesTheForm,
    Fault::TakesTheOldLength,
    Fault::WantsTheFormBefore,
];

/// A step as it should be: the desk before and after it, and what was told.
struct Step<'a> {
    before: Desk,
    after: Desk,
    told: Told,
    entry: &'a [u8],
}

impl Step<'_> {
    /// The kind of a done entry and the type that it sent, 0 for none.
    fn done(&self) -> Option<(u8, u8)> {
        let sent = || self.after.sent_since(self.before.marks.held);
        let done = self.told.answer == DONE;
        done.then(|| (self.entry[0], sent().first().copied().unwrap_or(0)))
    }

    /// The bits before the step.
    fn bits_before(&self) -> &[u8] {
        &self.before.table[bits_at(&self.before.table).unwrap_or(0)..]
    }

    /// The bits after it, to be spoilt.
    fn bits(&mut self) -> &mut [u8] {
        let at = bits_at(&self.after.table).unwrap_or(0);
        &mut self.after.table[at..]
    }

    /// Writes another sum.
    fn sums(&mut self, sum: u32) {
        self.after.table[SUM].copy_from_slice(&sum.to_be_bytes());
    }

    /// The shares at this place of the record that the entry names, as it was.
    fn shares(&self, at: usize) -> u32 {
        let table = &self.before.table;
        let named = self.entry.get(TOKEN).and_then(|token| row(table, token));
        named.map_or(0, |row| number(&table[row + at..][..4]))
    }

    /// Executed and self-matched of that record, and what it had open.
    fn spent(&self) -> u32 {
        self.shares(20).wrapping_add(self.shares(24))
    }

    fn open(&self) -> u32 {
        self.shares(16).wrapping_sub(self.spent())
    }
}

/// Turns the bit of a record.
fn flip(bits: &mut [u8], place: usize) {
    bits[place / 8] ^= 1 << (place % 8);
}

/// What a fault makes of the bits after a done entry.
fn spoil_bits(fault: Fault, step: &mut Step, done: (u8, u8)) {
    let before = step.bits_before().to_vec();
    let records = room(step.before.table.len());
    let used = number(&step.before.table[USED]) as usize;
    let named = step.entry.get(TOKEN);
    let named = named.and_then(|token| row(&step.before.table, token));
    let place = named.map(|row| (row - HEADER_LEN) / RECORD_LEN);
    let bits = step.bits();
    let both = bits.iter_mut().zip(&before);
    match fault {
        Fault::KeepsTheBit(kind, sends) if done == (kind, sends) => {
            both.for_each(|(bits, before)| *bits |= before);
        }
        Fault::SetsNoBit(kind, sends) if done == (kind, sends) => {
            both.for_each(|(bits, before)| *bits &= before);
        }
        Fault::LeavesTheBitAtTheOldPlace if done == (b'U', b'U') => bits.copy_from_slice(&before),
        Fault::SetsABit(kind, sends) if done == (kind, sends) => flip(bits, used),
        Fault::CountsLateOrdersOut if b"lf".contains(&done.0) && done.1 == 0 => {
            flip(bits, place.expect("done, so it is there"));
        }
        Fault::ClearsABitTooEarly if b"ecqX".contains(&done.0) && b"ECD".contains(&done.1) => {
            let place = place.expect("done, so it is there");
            bits[place / 8] &= !(1 << (place % 8));
        }
        Fault::ForgetsWhichByte => {
            let moved: Vec<u8> = both.map(|(bits, before)| *bits ^ before).collect();
            bits.copy_from_slice(&before);
            moved.iter().for_each(|moved| bits[0] ^= moved);
        }
        Fault::SetsSpareBits => {
            (records..8 * bits.len()).for_each(|place| flip(bits, place));
        }
        _ => {}
    }
}

/// What a fault makes of the sum after a done entry.
fn spoil_sum(fault: Fault, step: &mut Step, done: (u8, u8)) {
    let (before, sum) = (
        number(&step.before.table[SUM]),
        number(&step.after.table[SUM]),
    );
    let (spent, open) = (step.spent(), step.open());
    let ends = b"XUf".contains(&done.0) && done.1 == b'C' && before.wrapping_sub(sum) == open;
    match fault {
        Fault::KeepsTheSum(kind, sends) if done == (kind, sends) => step.sums(before),
        Fault::AddsLiable if done == (b'U', b'U') => step.sums(sum.wrapping_add(spent)),
        Fault::ForgetsTheReplacedOrder if done == (b'U', b'U') => {
            step.sums(sum.wrapping_add(open));
        }
        Fault::TakesTheSizeOff if done == (b'X', b'C') => {
            step.sums(before.wrapping_sub(number(&step.entry[SIZE])));
        }
        Fault::TakesLiableOff if ends => step.sums(sum.wrapping_sub(spent)),
        Fault::AddsRejectedShares if done == (b'O', b'J') => {
            let shares = number(&step.entry[24..28]);
            step.sums(sum.wrapping_add(shares));
        }
        Fault::CutsTheSum => step.sums(sum & 0xff_ffff),
        _ => {}
    }
}

/// What this fault turns around in a table before it looks at it, and after it has written.
fn turn(fault: Fault, table: &mut [u8]) {
    let Some(at) = bits_at(table) else {
        return;
    };
    match fault {
        Fault::BeginsWithTheHighestBit => {
            table[at..]
                .iter_mut()
                .for_each(|byte| *byte = byte.reverse_bits());
        }
        Fault::BeginsWithTheLastByte => table[at..].reverse(),
        Fault::WritesALittleSum => table[SUM].reverse(),
        _ => {}
    }
}

/// The bits of which a table has other ones than a walk finds: those that are set and shouldn't be, and
/// those that should be and aren't.
fn wrong_bits(table: &[u8]) -> (Vec<usize>, Vec<usize>) {
    let mut right = table.to_vec();
    recount(&mut right);
    let at = bits_at(table).unwrap_or(0);
    let set = |bits: &[u8], place: usize| bits[at + place / 8] >> (place % 8) & 1 == 1;
    let places = 0..8 * (table.len() - at);
    places
        .filter(|&place| set(table, place) != set(&right, place))
        .partition(|&place| set(table, place))
}

/// Whether this fault takes bits for right that are so wrong.
fn takes_bits(fault: Fault, table: &[u8]) -> bool {
    let (extra, missing) = wrong_bits(table);
    let used = used_records(table).count();
    let all = |places: Range<usize>| extra.iter().all(|place| places.contains(place));
    match fault {
        Fault::TakesSpareBits => all(room(table.len())..usize::MAX) && missing.is_empty(),
        Fault::TakesUnusedBits => all(used..room(table.len())) && missing.is_empty(),
        Fault::TakesDeadBits => all(0..used) && missing.is_empty(),
        Fault::TakesMissingBits => extra.is_empty(),
        Fault::TakesAsManyBits => extra.len() == missing.len(),
        _ => extra.is_empty() && missing.is_empty(),
    }
}

/// Whether this fault takes the sum for right.
fn takes_sum(fault: Fault, table: &[u8]) -> bool {
    let mut right = table.to_vec();
    recount(&mut right);
    let (sum, right) = (number(&table[SUM]), number(&right[SUM]));
    match fault {
        Fault::TakesAnySum => true,
        Fault::TakesAHigherSum => sum >= right,
        Fault::TakesALowerSum => sum <= right,
        _ => sum == right,
    }
}

/// What is no sound table, as this fault takes it: where all that it doesn't ask for is put right, it
/// may be one.
fn taken(fault: Fault, table: &[u8]) -> Option<Vec<u8>> {
    let mut taken = table.to_vec();
    let (len, form) = (table.len(), *table.get(FORM)?);
    match fault {
        Fault::TakesOldTables => {
            let records = len.checked_sub(HEADER_LEN)? / RECORD_LEN;
            taken = vec![0; table_len(records)];
            return (Second.convert(table, &mut taken) == DONE).then_some(taken);
        }
        Fault::TakesOneByteMore => taken.truncate(len - 1),
        Fault::TakesOneByteLess => taken.push(0),
        Fault::TakesFormZero if form != 0 => return None,
        Fault::TakesFormZero | Fault::TakesAnyForm => taken[FORM] = 1,
        _ => {}
    }
    let right = bits_at(&taken).is_some() && takes_bits(fault, &taken) && takes_sum(fault, &taken);
    right.then(|| {
        recount(&mut taken);
        taken
    })
}

/// Whether an unused record looks like a live order.
fn looks_live(table: &[u8]) -> bool {
    let records = table[HEADER_LEN..].chunks_exact(RECORD_LEN);
    let mut unused = records
        .take(room(table.len()))
        .skip(number(&table[USED]) as usize);
    unused.any(|record| record[0] == b'L')
}

/// What a fault makes of a sound table, or of one that isn't.
fn judge(fault: Fault, step: &mut Step) {
    let table = &step.before.table;
    let sound = step.told.answer != NOT_SOUND;
    let ring_first = fault == Fault::AsksForTheRingBeforeTheBits;
    if sound && fault == Fault::CountsUnusedRecords && looks_live(table) {
        step.after = step.before.clone();
        step.told.answer = NOT_SOUND;
    }
    let taken = match fault {
        _ if sound => None,
        // Bits and sum are put right, and then only what is wrong with the ring is told.
        _ if ring_first => {
            let mut counted = table.clone();
            recount(&mut counted);
            Some(counted)
        }
        _ => taken(fault, table),
    };
    let shown = taken.map(|table| Desk {
        table,
        ..step.before.clone()
    });
    let told = shown.map(|mut shown| shown.step(&Second, step.entry));
    if let Some(told) = told.filter(|told| !ring_first || told.answer == WRONG_RING) {
        step.told = told;
    }
}

/// What a fault makes of a blocked step: bits and sum are there already.
fn blocked(fault: Fault, step: &mut Step) {
    if fault == Fault::CountsWhenBlocked && step.told.answer == BLOCKED {
        let mut roomy = step.before.clone();
        (roomy.marks.held, roomy.marks.at) = (0, 0);
        assert_eq!(roomy.step(&Second, step.entry).answer, DONE);
        let at = bits_at(&roomy.table).unwrap_or(0);
        step.bits().copy_from_slice(&roomy.table[at..]);
        step.sums(number(&roomy.table[SUM]));
    }
}

/// The second host's step with this fault.
fn step(fault: Fault, desk: &mut Desk, entry: &[u8]) -> Told {
    let before = desk.clone();
    turn(fault, &mut desk.table);
    let told = desk.step(&Second, entry);
    turn(fault, &mut desk.table);
    let mut step = Step {
        before,
        after: desk.clone(),
        told,
        entry,
    };
    if let Some(done) = step.done() {
        spoil_bits(fault, &mut step, done);
        spoil_sum(fault, &mut step, done);
    }
    if OF_TABLES.contains(&fault) {
        judge(fault, &mut step);
        blocked(fault, &mut step);
    }
    *desk = step.after;
    step.told
}

/// The second host's fresh call with this fault.
fn fresh(fault: Fault, table: &mut [u8], threshold: u32, firms: &[[u8; 4]]) -> u8 {
    let before = table.to_vec();
    let answer = Second.fresh(table, threshold, firms);
    let bits = bits_at(table).unwrap_or(0);
    match (fault, answer) {
        (Fault::LeavesTheBits, DONE) => table[bits..].copy_from_slice(&before[bits..]),
        (Fault::LeavesTheSum, DONE) => table[SUM].copy_from_slice(&before[SUM]),
        (Fault::LeavesTheForm, DONE) => table[FORM] = 0,
        (Fault::WantsTheFormBefore, _) if before.get(FORM) != Some(&1) => {
            table.copy_from_slice(&before);
            return NOT_SOUND;
        }
        (Fault::TakesTheOldLength, NOT_SOUND) => {
            let records = table.len().saturating_sub(HEADER_LEN) / RECORD_LEN;
            if table.len() == old_len(records) {
                return Second.fresh(&mut vec![0; table_len(records)], threshold, firms);
            }
        }
        _ => {}
    }
    answer
}

/// The second host with this fault, or with none.
struct Broken(Option<Fault>);

impl common::Broken for Broken {
    fn fresh(&self, table: &mut [u8], threshold: u32, firms: &[[u8; 4]]) -> u8 {
        match self.0 {
            Some(fault) => fresh(fault, table, threshold, firms),
            None => Second.fresh(table, threshold, firms),
        }
    }

    fn step(&self, desk: &mut Desk, entry: &[u8]) -> Told {
        match self.0 {
            Some(fault) => step(fault, desk, entry),
            None => desk.step(&Second, entry),
        }
    }
}

/// The difference that a host shows, if any.
fn difference(fault: Option<Fault>) -> Option<Box<Difference>> {
    common::difference(Broken(fault))
}

/// Each is found out by a call of the kind that it gets wrong.
#[test]
fn every_fault_is_seen() {
    let unseen = |fault: &Fault, is_it: fn(&Command) -> bool| {
        let seen = difference(Some(*fault)).map(|seen| seen.command);
        !seen.is_some_and(|command| is_it(&command))
    };
    let steps = |command: &Command| matches!(command, Command::Step(_));
    let freshes = |command: &Command| matches!(command, Command::Fresh(_));
    let of_steps = OF_ENTRIES.iter().chain(&OF_TABLES);
    let mut never: Vec<&Fault> = of_steps.filter(|fault| unseen(fault, steps)).collect();
    never.extend(OF_FRESH.iter().filter(|fault| unseen(fault, freshes)));
    assert!(never.is_empty(), "never seen: {never:?}");
}

#[test]
fn a_host_without_a_fault_shows_none() {
    assert!(difference(None).is_none());
}

/// Those of one kind are found out by an entry of that kind.
#[test]
fn a_fault_of_a_kind_is_seen_in_that_kind() {
    for fault in OF_ENTRIES {
        let kind = match fault {
            Fault::KeepsTheBit(kind, _)
            | Fault::SetsNoBit(kind, _)
            | Fault::SetsABit(kind, _)
            | Fault::KeepsTheSum(kind, _) => kind,
            _ => continue,
        };
        let seen = difference(Some(fault)).map(|seen| seen.command);
        let Some(Command::Step(entry)) = seen else {
            panic!("never seen: {fault:?}");
        };
        assert_eq!(entry[0], kind, "{fault:?}");
    }
}

#[test]
fn a_difference_tells_where_it_is() {
    for (fault, part) in [
        (
            Fault::KeepsTheBit(b'w', b'C'),
            "first in the bits behind the records, byte",
        ),
        (
            Fault::SetsABit(b'O', b'J'),
            "first in the bits behind the records, byte",
        ),
        (
            Fault::SetsSpareBits,
            "first in the bits behind the records, byte",
        ),
        (
            Fault::KeepsTheSum(b'M', b'M'),
            "first in the table's header, byte 6",
        ),
        (
            Fault::CountsWhenBlocked,
            "first in the table's header, byte 6",
        ),
        (Fault::TakesSpareBits, "first in the answer"),
        (Fault::TakesOldTables, "first in the answer"),
        (Fault::LeavesTheForm, "first in the table's header, byte 2"),
        (Fault::TakesTheOldLength, "first in the answer"),
    ] {
        let seen = difference(Some(fault));
        let told = seen.map(|seen| seen.to_string()).unwrap_or_default();
        assert!(told.contains(part), "{fault:?}: {told}");
    }
}
