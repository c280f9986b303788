//! Hosts that get a w wrong in one way each, and every one is found out.
//!
//! A broken host is the second host, to which the records are shown in such a way that it takes the
//! order which the fault would take; some faults then spoil what it left.

mod common;

use std::ops::Range;

use compare::records::{HEADER_LEN, RECORD_LEN, number, used_records};
use compare::{Command, Desk, Difference, Second, Told};

/// Where a w has its firm and its symbol, and a record what is asked of it.
const FIRM: Range<usize> = 9..13;
const SYMBOL: Range<usize> = 13..21;
const TOKEN: Range<usize> = 1..15;
const LIABLE: Range<usize> = 16..20;
const STOCK: Range<usize> = 28..36;
const RECORD_FIRM: Range<usize> = 44..48;
const CROSS: usize = 55;
const FLAGS: usize = 64;
/// The flags of a record, and what a w says for all symbols.
const LATE: u8 = 1;
const PENDING: u8 = 2;
const ALL: &[u8] = b"        ";
/// The answers to a w.
const DONE: u8 = 0;
const IGNORED: u8 = 1;
const BAD_FIELD: u8 = 3;
const TOO_EARLY: u8 = 4;
const NOT_LIVE: u8 = 5;
const WRONG_MOMENT: u8 = 7;
const BLOCKED: u8 = 9;
const NOT_LISTED: u8 = 15;

#[derive(Clone, Copy, Debug, PartialEq)]
enum Fault {
    CancelsLateOrders,
    StopsAtALateOrder,
    TakesEveryCrossForLate,
    PassesOverPendingOrders,
    PassesOverHaltedStocks,
    IgnoresTheSymbol,
    WantsASymbol,
    TakesALeadingSpaceForAll,
    TakesATrailingSpaceForAll,
    ComparesThreeOfTheSymbol,
    ComparesThreeOfTheFirm,
    IgnoresTheFirm,
    LooksFromTheLastRecord,
    LooksAtTheFirstByteOnly,
    StopsAtAnEmptyByte,
    PassesOverTheHighestBit,
    BeginsWithTheHighestBit,
    LooksOnceAByte,
    GoesByTheTokensFirstRecord,
    StopsAfterTheFirstOfTheFirm,
    WantsAnOpenDay,
    IsIgnoredAfterTheClose,
    WantsAListedSymbol,
    IsIgnoredWhileTheFirmIsBlocked,
    TakesUnlistedFirms,
    TakesFirmsThatHaveOrders,
    TakesABlankFirmForTheDefault,
    TakesZerosForAFirm,
    AsksForTheFirmBeforeTheStamp,
    TakesAnUnlistedFirmForABadField,
    SaysDoneWhenNoneIsLeft,
    SaysNotLiveWhenNoneIsLeft,
    MovesTheStampWhenNoneIsLeft,
    CancelsAllAtOnce,
    TellsLiable,
    TellsNothing,
    GivesAnotherReason,
    KeepsLiable,
    LosesWhatWasSelfMatched,
    LeavesTheOrderLive,
    FreesTheToken,
    ClearsTheFlags,
    BlocksTheFirmToo,
    TakesAReference,
    KeepsTheLastStamp,
    EndsTheOrderWhenBlocked,
}

const FAULTS: [Fault; 46] = [
    Fault::CancelsLateOrders,
    Fault::StopsAtALateOrder,
    Fault::TakesEveryCrossForLate,
    Fault::PassesOverPendingOrders,
    Fault::PassesOverHaltedStocks,
    Fault::IgnoresTheSymbol,
    Fault::WantsASymbol,
    Fault::TakesALeadingSpaceForAll,
    Fault::TakesATrailingSpaceForAll,
    Fault::ComparesThreeOfTheSymbol,
    Fault::ComparesThreeOfTheFirm,
    Fault::IgnoresTheFirm,
    Fault::LooksFromTheLastRecord,
    Fault::LooksAtTheFirstByteOnly,
    Fault::StopsAtAnEmptyByte,
    Fault::PassesOverTheHighestBit,
    Fault::BeginsWithTheHighestBit,
    Fault::LooksOnceAByte,
    Fault::GoesByTheTokensFirstRecord,
    Fault::StopsAfterTheFirstOfTheFirm,
    Fault::WantsAnOpenDay,
    Fault::IsIgnoredAfterTheClose,
    Fault::WantsAListedSymbol,
    Fault::IsIgnoredWhileTheFirmIsBlocked,
    Fault::TakesUnlistedFirms,
    Fault::TakesFirmsThatHaveOrders,
    Fault::TakesABlankFirmForTheDefault,
    Fault::TakesZerosForAFirm,
    Fault::AsksForTheFirmBeforeTheStamp,
    Fault::TakesAnUnlistedFirmForABadField,
    Fault::SaysDoneWhenNoneIsLeft,
    Fault::SaysNotLiveWhenNoneIsLeft,
    Fault::MovesTheStampWhenNoneIsLeft,
    Fault::CancelsAllAtOnce,
    Fault::TellsLiable,
    Fault::TellsNothing,
    Fault::GivesAnotherReason,
    Fault::KeepsLiable,
    Fault::LosesWhatWasSelfMatched,
    Fault::LeavesTheOrderLive,
    Fault::FreesTheToken,
    Fault::ClearsTheFlags,
    Fault::BlocksTheFirmToo,
    Fault::TakesAReference,
    Fault::KeepsTheLastStamp,
    Fault::EndsTheOrderWhenBlocked,
];

/// The listed firms of a sound table.
fn firms(table: &[u8]) -> impl Iterator<Item = &[u8]> {
    let count = usize::from(table[1]);
    table[28..60].chunks_exact(4).take(count)
}

/// Whether the firm that a w names is blocked.
fn blocked(table: &[u8], firm: &[u8]) -> bool {
    let place = firms(table).position(|listed| listed == firm);
    place.is_some_and(|place| table[3] >> place & 1 == 1)
}

/// Whether a stock is listed and in this state, or in any.
fn listed_in(stocks: &[u8], stock: &[u8], states: &[u8]) -> bool {
    let mut places = stocks.chunks_exact(9);
    places.any(|place| place[..8] == *stock && states.contains(&place[8]))
}

/// Whether a record may be passed over, for whatever reason this fault has.
fn passes_over(fault: Option<Fault>, desk: &Desk, record: &[u8]) -> bool {
    let flag = |flag| record[FLAGS] & flag != 0;
    match fault {
        Some(Fault::CancelsLateOrders | Fault::StopsAtALateOrder) => false,
        Some(Fault::TakesEveryCrossForLate) => flag(LATE) || record[CROSS] != b'N',
        Some(Fault::PassesOverPendingOrders) => flag(LATE) || flag(PENDING),
        Some(Fault::PassesOverHaltedStocks) => {
            flag(LATE) || listed_in(&desk.stocks, &record[STOCK], b"H")
        }
        _ => flag(LATE),
    }
}

/// Whether a w of this fault means a record's firm and stock.
fn means(fault: Option<Fault>, table: &[u8], entry: &[u8], record: &[u8]) -> bool {
    let (firm, symbol) = (meant_firm(fault, table, entry), &entry[SYMBOL]);
    let (its_firm, stock) = (&record[RECORD_FIRM], &record[STOCK]);
    let of_firm = match fault {
        Some(Fault::ComparesThreeOfTheFirm) => its_firm[..3] == firm[..3],
        Some(Fault::IgnoresTheFirm) => true,
        _ => its_firm == firm,
    };
    let in_symbol = match fault {
        Some(Fault::IgnoresTheSymbol) => true,
        Some(Fault::WantsASymbol) => stock == symbol,
        Some(Fault::TakesALeadingSpaceForAll) => symbol[0] == b' ' || stock == symbol,
        Some(Fault::TakesATrailingSpaceForAll) => symbol[7] == b' ' || stock == symbol,
        Some(Fault::ComparesThreeOfTheSymbol) => symbol == ALL || stock[..3] == symbol[..3],
        _ => symbol == ALL || stock == symbol,
    };
    of_firm && in_symbol
}

/// The firm that this fault takes a w's for.
fn meant_firm<'a>(fault: Option<Fault>, table: &'a [u8], entry: &'a [u8]) -> &'a [u8] {
    match (fault, &entry[FIRM]) {
        (Some(Fault::TakesABlankFirmForTheDefault), b"    ") => &table[28..32],
        (_, firm) => firm,
    }
}

/// Which of the records at these places this fault comes to first, if any. Some go along the bits of
/// live orders wrongly, eight records a byte.
fn finds(fault: Option<Fault>, records: &[&[u8]], places: &[usize]) -> Option<usize> {
    let &first = places.first()?;
    let none_live = |records: &[&[u8]]| records.iter().all(|record| record[0] != b'L');
    let mut places = places.iter().copied();
    match fault {
        Some(Fault::LooksFromTheLastRecord) => places.next_back(),
        Some(Fault::LooksAtTheFirstByteOnly) => Some(first).filter(|&first| first < 8),
        Some(Fault::StopsAtAnEmptyByte) => {
            let mut bytes = records[..first / 8 * 8].chunks(8);
            (!bytes.any(none_live)).then_some(first)
        }
        Some(Fault::PassesOverTheHighestBit) => places.find(|place| place % 8 != 7),
        Some(Fault::BeginsWithTheHighestBit) => {
            places.take_while(|place| place / 8 == first / 8).last()
        }
        Some(Fault::LooksOnceAByte) => {
            places.find(|&place| none_live(&records[place / 8 * 8..place]))
        }
        _ => Some(first),
    }
}

/// The used record that this fault takes, if any.
fn takes(fault: Option<Fault>, desk: &Desk, entry: &[u8]) -> Option<usize> {
    let records: Vec<&[u8]> = used_records(&desk.table).collect();
    let firsts = |record: &[u8]| records.iter().find(|first| first[TOKEN] == record[TOKEN]);
    let live = |record: &[u8]| match fault {
        Some(Fault::GoesByTheTokensFirstRecord) => {
            firsts(record).is_some_and(|first| first[0] == b'L') && record[0] == b'L'
        }
        _ => record[0] == b'L',
    };
    let meant = |record: &&[u8]| {
        let passed_over = passes_over(fault, desk, record);
        live(record) && !passed_over && means(fault, &desk.table, entry, record)
    };
    let places = (0..records.len()).filter(|&place| meant(&records[place]));
    let place = finds(fault, &records, &places.collect::<Vec<_>>())?;
    let firm = &records[place][RECORD_FIRM];
    let stops = match fault {
        Some(Fault::StopsAtALateOrder) => records[place][FLAGS] & LATE != 0,
        Some(Fault::StopsAfterTheFirstOfTheFirm) => {
            let earlier = &records[..place];
            earlier.iter().any(|one| one[RECORD_FIRM] == *firm)
        }
        _ => false,
    };
    (!stops).then_some(place)
}

/// What this fault answers without looking for an order, if anything.
fn refuses(fault: Option<Fault>, desk: &Desk, entry: &[u8], right: u8) -> Option<u8> {
    let (table, open) = (&desk.table, desk.table[0] == 1);
    let (firm, symbol) = (&entry[FIRM], &entry[SYMBOL]);
    let listed = match fault {
        Some(Fault::TakesUnlistedFirms) => true,
        Some(Fault::TakesFirmsThatHaveOrders) => takes(fault, desk, entry).is_some(),
        Some(Fault::TakesABlankFirmForTheDefault) => firm == b"    ",
        Some(Fault::TakesZerosForAFirm) => firm == [0; 4] && table[1] < 8,
        _ => false,
    } || firms(table).any(|listed| listed == firm);
    match (fault, right) {
        (Some(Fault::AsksForTheFirmBeforeTheStamp), TOO_EARLY) if !listed => Some(NOT_LISTED),
        (_, TOO_EARLY) => Some(TOO_EARLY),
        (Some(Fault::TakesAnUnlistedFirmForABadField), _) if !listed => Some(BAD_FIELD),
        _ if !listed => Some(NOT_LISTED),
        (Some(Fault::WantsAnOpenDay), _) if !open => Some(WRONG_MOMENT),
        (Some(Fault::IsIgnoredAfterTheClose), _) if table[0] == 2 => Some(IGNORED),
        (Some(Fault::IsIgnoredWhileTheFirmIsBlocked), _) if blocked(table, firm) => Some(IGNORED),
        (Some(Fault::WantsAListedSymbol), _) => {
            let listed = symbol == ALL || listed_in(&desk.stocks, symbol, b"TH");
            (!listed).then_some(NOT_LIVE)
        }
        _ => None,
    }
}

/// Has the second host take this record and no other: all other live ones are shown as late, and this
/// one as the default's in any symbol. What isn't a w's to change is put back.
fn take(desk: &mut Desk, entry: &[u8], place: Option<usize>) -> u8 {
    let before = desk.table.clone();
    let default = &before[28..32];
    let shown = [&entry[..9], default, ALL].concat();
    let used = number(&before[4..8]) as usize;
    let records = desk.table[HEADER_LEN..].chunks_exact_mut(RECORD_LEN);
    for (number, record) in records.take(used).enumerate() {
        if record[0] == b'L' {
            record[FLAGS] = if Some(number) == place { 0 } else { LATE };
            record[RECORD_FIRM].copy_from_slice(default);
        }
    }
    let answer = desk.step(&Second, &shown).answer;
    let records = desk.table[HEADER_LEN..].chunks_exact_mut(RECORD_LEN);
    let kept = before[HEADER_LEN..].chunks_exact(RECORD_LEN);
    for (record, kept) in records.zip(kept).take(used) {
        record[FLAGS] = kept[FLAGS];
        record[RECORD_FIRM].copy_from_slice(&kept[RECORD_FIRM]);
    }
    answer
}

/// Ends an order as a w does.
fn end(record: &mut [u8]) {
    let spent = number(&record[20..24]) + number(&record[24..28]);
    record[0] = b'D';
    record[LIABLE].copy_from_slice(&spent.to_be_bytes());
}

/// What this fault makes of the record that was taken, which was `before`.
fn spoil_record(fault: Fault, record: &mut [u8], before: &[u8]) {
    match fault {
        Fault::KeepsLiable => record[LIABLE].copy_from_slice(&before[LIABLE]),
        Fault::LosesWhatWasSelfMatched => record.copy_within(20..24, LIABLE.start),
        Fault::LeavesTheOrderLive => record[0] = b'L',
        Fault::FreesTheToken => record.fill(0),
        Fault::ClearsTheFlags => record[FLAGS] = 0,
        _ => {}
    }
}

/// What this fault makes of the Canceled that was sent: the decrement and the reason are its end.
fn spoil_message(fault: Fault, desk: &mut Desk, before: &[u8]) {
    let len = desk.ring.len();
    let end = desk.marks.at + desk.marks.held;
    let mut write = |back: usize, bytes: &[u8]| {
        for (place, &byte) in (end - back..).zip(bytes) {
            desk.ring[place % len] = byte;
        }
    };
    match fault {
        Fault::TellsLiable => write(5, &before[LIABLE]),
        Fault::TellsNothing => write(5, &[0; 4]),
        Fault::GivesAnotherReason => write(1, b"S"),
        _ => {}
    }
}

/// What this fault makes of a done w, which has taken the record at this place.
fn spoil(fault: Fault, before: &Desk, desk: &mut Desk, entry: &[u8], place: usize) {
    let at = HEADER_LEN + RECORD_LEN * place;
    let record = at..at + RECORD_LEN;
    let taken = &before.table[record.clone()];
    spoil_record(fault, &mut desk.table[record], taken);
    spoil_message(fault, desk, taken);
    match fault {
        Fault::CancelsAllAtOnce => {
            while let Some(next) = takes(None, desk, entry) {
                let at = HEADER_LEN + RECORD_LEN * next;
                end(&mut desk.table[at..at + RECORD_LEN]);
            }
        }
        Fault::BlocksTheFirmToo => {
            let mut firms = firms(&desk.table);
            let place = firms.position(|firm| *firm == entry[FIRM]);
            drop(firms);
            desk.table[3] |= 1 << place.expect("done, so it is listed");
        }
        // The reference's last byte; a sound one of 255 wraps, which shows too.
        Fault::TakesAReference => desk.table[23] = desk.table[23].wrapping_add(1),
        Fault::KeepsTheLastStamp => desk.table[8..16].copy_from_slice(&before.table[8..16]),
        _ => {}
    }
}

/// A w as this fault has it; `right` is the second host's answer.
fn purge(fault: Option<Fault>, desk: &mut Desk, entry: &[u8], right: u8) -> Told {
    if let Some(answer) = refuses(fault, desk, entry, right) {
        let place = if answer == BAD_FIELD { FIRM.start } else { 0 };
        return Told { answer, place };
    }
    let (before, place) = (desk.clone(), takes(fault, desk, entry));
    let mut answer = take(desk, entry, place);
    match (fault, place, answer) {
        (Some(fault), Some(place), DONE) => spoil(fault, &before, desk, entry, place),
        (Some(Fault::EndsTheOrderWhenBlocked), Some(place), BLOCKED) => {
            let at = HEADER_LEN + RECORD_LEN * place;
            end(&mut desk.table[at..at + RECORD_LEN]);
        }
        (Some(Fault::SaysNotLiveWhenNoneIsLeft), None, _) => answer = NOT_LIVE,
        (Some(Fault::SaysDoneWhenNoneIsLeft), None, _) => answer = DONE,
        _ => {}
    }
    let moves = fault == Some(Fault::MovesTheStampWhenNoneIsLeft) || answer == DONE;
    if place.is_none() && moves {
        desk.table[8..16].copy_from_slice(&entry[1..9]);
    }
    Told { answer, place: 0 }
}

/// The second host's step with this fault, or with none.
fn step(fault: Option<Fault>, desk: &mut Desk, entry: &[u8]) -> Told {
    let right = desk.clone().step(&Second, entry).answer;
    match (entry, right) {
        ([b'w', ..], DONE | IGNORED | TOO_EARLY | BLOCKED | NOT_LISTED) => {
            purge(fault, desk, entry, right)
        }
        _ => desk.step(&Second, entry),
    }
}

/// The difference that a host shows, if any.
fn difference(fault: Option<Fault>) -> Option<Box<Difference>> {
    common::difference_in_steps(|desk, entry| step(fault, desk, entry))
}

#[test]
fn every_fault_is_seen() {
    let found_out = |fault: &Fault| {
        let seen = difference(Some(*fault)).map(|seen| seen.command);
        matches!(seen, Some(Command::Step(entry)) if entry[0] == b'w')
    };
    let unseen: Vec<Fault> = FAULTS
        .into_iter()
        .filter(|fault| !found_out(fault))
        .collect();
    assert!(unseen.is_empty(), "never seen: {unseen:?}");
}

#[test]
fn a_host_without_a_fault_shows_none() {
    assert!(difference(None).is_none());
}

#[test]
fn a_difference_tells_where_it_is() {
    for (fault, part) in [
        (Fault::IsIgnoredAfterTheClose, "first in the answer"),
        (Fault::WantsAnOpenDay, "first in the answer"),
        // Another order has other shares.
        (Fault::LooksFromTheLastRecord, "the table's header, byte 6"),
        (Fault::LeavesTheOrderLive, " of the table, byte 0"),
        (Fault::BlocksTheFirmToo, "the table's header, byte 3"),
        (Fault::ClearsTheFlags, " of the table, byte 64"),
        (Fault::GivesAnotherReason, "first in the ring, byte"),
        // The answer is another one too.
        (
            Fault::TakesAnUnlistedFirmForABadField,
            "first in the answer",
        ),
    ] {
        let seen = difference(Some(fault));
        let told = seen.map(|seen| seen.to_string()).unwrap_or_default();
        assert!(told.contains(part), "{fault:?}: {told}");
    }
}
