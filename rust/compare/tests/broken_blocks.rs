//! Hosts that get the firms' blocks wrong in one way each: d and n, the new orders that they stop,
//! and the byte that they stand in. Every one is found out.
//!
//! A broken host is the second host, whose right outcome is spoilt as one fault would, or to which
//! other blocks are shown.

mod common;

use std::ops::Range;

use compare::records::row;
use compare::{Command, Desk, Difference, Second, Told};

/// Where d and n, an O and a record have a firm, and where an entry and a record have more.
const FIRM: Range<usize> = 9..13;
const ENTER_FIRM: Range<usize> = 44..48;
const RECORD_FIRM: Range<usize> = 44..48;
const RECORD_STOCK: Range<usize> = 28..36;
const TOKEN: Range<usize> = 9..23;
/// Where a table has its last stamp, its blocks and its firms.
const LAST_STAMP: Range<usize> = 8..16;
const BLOCKS: usize = 3;
const FIRMS: Range<usize> = 28..60;
/// The length of a Rejected, which no other message to an O or a U has.
const REJECTED: usize = 24;
/// The answers that a fault turns into one another.
const DONE: u8 = 0;
const IGNORED: u8 = 1;
const TOO_EARLY: u8 = 4;
const WRONG_MOMENT: u8 = 7;
const BLOCKED: u8 = 9;
const NOT_SOUND: u8 = 10;
const NOT_LISTED: u8 = 15;

#[derive(Clone, Copy, Debug, PartialEq)]
enum Fault {
    BeginsWithTheHighestBit,
    UsesTheLastPlace,
    SetsAllItsPlaces,
    SwapsThem,
    TogglesTheBit,
    SetsTheWholeByte,
    SetsByteTwo,
    IgnoresWhatIsThere,
    WantsAnOpenDay,
    WantsRoom,
    KeepsTheLastStamp,
    TakesUnlistedFirms,
    TakesABlankFirmForTheDefault,
    TakesZerosForAFirm,
    AsksForTheFirmBeforeTheStamp,
    TakesNoBlock,
    LetsABlankFirmIn,
    StopsABlankFirmOnly,
    GoesByTheLastPlace,
    GoesByAnyPlace,
    StopsEveryFirm,
    TakesAnUnlistedFirmForTheDefault,
    AsksForABlockBeforeTheDay,
    AsksForABlockAfterTheStock,
    AsksForABlockAfterTheHalt,
    AsksForABlockLast,
    GivesACapital,
    IgnoresABlockedEnter,
    LeavesTheTokenFree,
    RejectsAReplace,
    IgnoresABlockedModify,
    IgnoresABlockedCancel,
    WantsNoBlocks,
    WantsABlockBelowTheCount,
    TakesOneBitMore,
    TakesAllBits,
    ForgetsAtTheStart,
    ForgetsAtTheClose,
    ForgetsWhenAnOrderComes,
}

/// Those that d and n show.
const OF_D_AND_N: [Fault; 15] = [
    Fault::BeginsWithTheHighestBit,
    Fault::UsesTheLastPlace,
    Fault::SetsAllItsPlaces,
    Fault::SwapsThem,
    Fault::TogglesTheBit,
    Fault::SetsTheWholeByte,
    Fault::SetsByteTwo,
    Fault::IgnoresWhatIsThere,
    Fault::WantsAnOpenDay,
    Fault::WantsRoom,
    Fault::KeepsTheLastStamp,
    Fault::TakesUnlistedFirms,
    Fault::TakesABlankFirmForTheDefault,
    Fault::TakesZerosForAFirm,
    Fault::AsksForTheFirmBeforeTheStamp,
];

/// Those that an O shows.
const OF_O: [Fault; 15] = [
    Fault::TakesNoBlock,
    Fault::LetsABlankFirmIn,
    Fault::StopsABlankFirmOnly,
    Fault::GoesByTheLastPlace,
    Fault::GoesByAnyPlace,
    Fault::StopsEveryFirm,
    Fault::TakesAnUnlistedFirmForTheDefault,
    Fault::AsksForABlockBeforeTheDay,
    Fault::AsksForABlockAfterTheStock,
    Fault::AsksForABlockAfterTheHalt,
    Fault::AsksForABlockLast,
    Fault::GivesACapital,
    Fault::IgnoresABlockedEnter,
    Fault::LeavesTheTokenFree,
    Fault::ForgetsWhenAnOrderComes,
];

/// And those that other entries show.
const OF_OTHERS: [(Fault, &[u8]); 9] = [
    (Fault::RejectsAReplace, b"U"),
    (Fault::IgnoresABlockedModify, b"M"),
    (Fault::IgnoresABlockedCancel, b"X"),
    (Fault::WantsNoBlocks, EVERY_KIND),
    (Fault::WantsABlockBelowTheCount, EVERY_KIND),
    (Fault::TakesOneBitMore, EVERY_KIND),
    (Fault::TakesAllBits, EVERY_KIND),
    (Fault::ForgetsAtTheStart, b"s"),
    (Fault::ForgetsAtTheClose, b"s"),
];
const EVERY_KIND: &[u8] = b"OUXMecqplfshwdn";

/// A step as it should be: the desk before and after it, and what was told.
struct Step<'a> {
    before: Desk,
    after: Desk,
    told: Told,
    entry: &'a [u8],
}

impl Step<'_> {
    /// The entry's kind, where it was done.
    fn done(&self) -> Option<u8> {
        (self.told.answer == DONE).then(|| self.entry[0])
    }

    /// The reason of the Rejected that was sent, if one was.
    fn reason(&self) -> Option<u8> {
        let sent = self.after.sent_since(self.before.marks.held);
        let rejected = self.done().is_some() && sent.len() == REJECTED;
        rejected.then(|| sent[REJECTED - 1])
    }

    /// Gives another reason.
    fn gives(&mut self, reason: u8) {
        let Desk { ring, marks, .. } = &mut self.after;
        let last = (marks.at + marks.held - 1) % ring.len();
        ring[last] = reason;
    }

    /// Answers so, and changes nothing.
    fn refuses(&mut self, answer: u8) {
        self.after = self.before.clone();
        self.told = Told { answer, place: 0 };
    }

    /// Does the step over other blocks, and leaves the table's own.
    fn over(&mut self, bits: u8) {
        self.after = self.before.clone();
        self.after.table[BLOCKS] = bits;
        self.told = self.after.step(&Second, self.entry);
        self.after.table[BLOCKS] = self.before.table[BLOCKS];
    }

    /// Every place of a firm among the listed ones.
    fn places(&self, firm: &[u8]) -> Vec<usize> {
        let table = &self.before.table;
        let firms = table[FIRMS].chunks_exact(4).take(usize::from(table[1]));
        let listed = firms.enumerate().filter(|(_, listed)| *listed == firm);
        listed.map(|(place, _)| place).collect()
    }

    /// The bits of these places.
    fn bits(&self, places: &[usize]) -> u8 {
        let bits = places.iter().map(|place| 1 << place);
        self.before.table[BLOCKS] & bits.fold(0, |bits, bit: u8| bits | bit)
    }

    /// Whether a firm is blocked.
    fn blocks(&self, firm: &[u8]) -> bool {
        let places = self.places(firm);
        self.bits(&places[..places.len().min(1)]) != 0
    }

    /// Whether the order is a blocked firm's that the entry names.
    fn order_is_blocked(&self) -> bool {
        let table = &self.before.table;
        let at = self.entry.get(TOKEN).and_then(|token| row(table, token));
        at.is_some_and(|at| self.blocks(&table[at..][RECORD_FIRM]))
    }
}

/// What this fault leaves of the blocks after a d or an n.
fn blocks_after(fault: Fault, step: &Step) -> u8 {
    let (kind, firm, bits) = (step.entry[0], &step.entry[FIRM], step.before.table[BLOCKS]);
    let places = step.places(firm);
    let (first, last) = (places[0], places[places.len() - 1]);
    let place = match fault {
        Fault::BeginsWithTheHighestBit => 7 - first,
        Fault::UsesTheLastPlace => last,
        _ => first,
    };
    let bit = match fault {
        Fault::SetsAllItsPlaces => places.iter().fold(0, |bits, place| bits | 1 << place),
        _ => 1_u8 << place,
    };
    match (fault, kind) {
        (Fault::TogglesTheBit, _) => bits ^ bit,
        (Fault::SetsTheWholeByte, b'd') => bit,
        (Fault::SetsTheWholeByte, _) => 0,
        (Fault::SwapsThem, b'n') => bits | bit,
        (Fault::SwapsThem, _) => bits & !bit,
        (_, b'd') => bits | bit,
        _ => bits & !bit,
    }
}

/// What a fault makes of a d or an n.
fn block(fault: Fault, step: &mut Step) {
    if step.done().is_some_and(|kind| b"dn".contains(&kind)) {
        step.after.table[BLOCKS] = blocks_after(fault, step);
        let same = step.after.table[BLOCKS] == step.before.table[BLOCKS];
        let Desk {
            table, marks, ring, ..
        } = &step.before;
        match fault {
            Fault::SetsByteTwo => {
                step.after.table[2] = step.after.table[BLOCKS];
                step.after.table[BLOCKS] = table[BLOCKS];
            }
            Fault::IgnoresWhatIsThere if same => step.refuses(IGNORED),
            Fault::WantsAnOpenDay if table[0] != 1 => step.refuses(WRONG_MOMENT),
            Fault::WantsRoom if marks.held == ring.len() => step.refuses(BLOCKED),
            Fault::KeepsTheLastStamp => {
                step.after.table[LAST_STAMP].copy_from_slice(&table[LAST_STAMP]);
            }
            _ => {}
        }
    }
}

/// What a fault makes of a d or an n whose firm isn't listed, or whose stamp is too low.
fn refused_block(fault: Fault, step: &mut Step) {
    let ([b'd' | b'n', ..], Some(firm)) = (step.entry, step.entry.get(FIRM)) else {
        return;
    };
    let answer = step.told.answer;
    let table = &step.before.table;
    match (fault, answer) {
        (Fault::AsksForTheFirmBeforeTheStamp, TOO_EARLY) if step.places(firm).is_empty() => {
            step.told.answer = NOT_LISTED;
        }
        (Fault::TakesUnlistedFirms, NOT_LISTED) => {
            step.told.answer = DONE;
            step.after.table[LAST_STAMP].copy_from_slice(&step.entry[1..9]);
        }
        (Fault::TakesABlankFirmForTheDefault, NOT_LISTED) if firm == b"    " => {
            let default = [&step.entry[..9], &table[28..32]].concat();
            step.told = step.after.step(&Second, &default);
        }
        (Fault::TakesZerosForAFirm, NOT_LISTED) if firm == [0; 4] && table[1] < 8 => {
            step.told.answer = DONE;
            step.after.table[LAST_STAMP].copy_from_slice(&step.entry[1..9]);
            let bit = 1 << table[1];
            step.after.table[BLOCKS] = match step.entry[0] {
                b'd' => table[BLOCKS] | bit,
                _ => table[BLOCKS],
            };
        }
        _ => {}
    }
}

/// What a fault makes of the blocks that a done O asks for.
fn enter(fault: Fault, step: &mut Step) {
    if step.done() != Some(b'O') {
        return;
    }
    let table = &step.before.table;
    let blank = step.entry[ENTER_FIRM] == *b"    ";
    let named = if blank {
        &table[28..32]
    } else {
        &step.entry[ENTER_FIRM]
    };
    let (places, default) = (step.places(named), step.bits(&[0]) != 0);
    let last = step.bits(&places[places.len().saturating_sub(1)..]) != 0;
    let any = step.bits(&places) != 0;
    let first = step.blocks(named);
    let blocked = match fault {
        Fault::TakesNoBlock => false,
        Fault::LetsABlankFirmIn => first && !blank,
        Fault::StopsABlankFirmOnly => first && blank,
        Fault::GoesByTheLastPlace => last,
        Fault::GoesByAnyPlace => any,
        Fault::StopsEveryFirm => table[BLOCKS] != 0,
        _ => first,
    };
    match (fault, step.reason()) {
        (Fault::AsksForABlockBeforeTheDay, Some(b'C')) if first => step.gives(b'a'),
        (Fault::TakesAnUnlistedFirmForTheDefault, Some(b'L')) if default => step.gives(b'a'),
        (Fault::ForgetsWhenAnOrderComes, _) => step.after.table[BLOCKS] = 0,
        // All bits or none, so that the second host finds the firm blocked or not.
        _ if blocked != first => {
            let all = ((1_u16 << table[1]) - 1) as u8;
            step.over(if blocked { all } else { 0 });
        }
        (_, Some(b'a')) => blocked_enter(fault, step),
        _ => {}
    }
}

/// What a fault makes of an O that is rejected with a.
fn blocked_enter(fault: Fault, step: &mut Step) {
    let later: &[u8] = match fault {
        Fault::AsksForABlockAfterTheStock => b"S",
        Fault::AsksForABlockAfterTheHalt => b"SH",
        Fault::AsksForABlockLast => b"SHRDXZN",
        _ => b"",
    };
    let right = (step.after.clone(), step.told);
    step.over(0);
    if !step.reason().is_some_and(|reason| later.contains(&reason)) {
        (step.after, step.told) = right;
    }
    match fault {
        Fault::GivesACapital => step.gives(b'A'),
        Fault::IgnoresABlockedEnter => step.refuses(IGNORED),
        Fault::LeavesTheTokenFree => {
            step.after.table[4..8].copy_from_slice(&step.before.table[4..8]);
            step.after.table[64..].copy_from_slice(&step.before.table[64..]);
        }
        _ => {}
    }
}

/// What a fault makes of a U, an M or an X of a blocked firm's order.
fn other(fault: Fault, step: &mut Step) {
    match (fault, step.done()) {
        (Fault::IgnoresABlockedModify, Some(b'M')) if step.order_is_blocked() => {
            step.refuses(IGNORED);
        }
        (Fault::IgnoresABlockedCancel, Some(b'X')) if step.order_is_blocked() => {
            step.refuses(IGNORED);
        }
        (Fault::RejectsAReplace, Some(b'U')) if step.order_is_blocked() => {
            // Rejected as if the stock were halted, with another letter.
            let at = row(&step.before.table, &step.entry[TOKEN]).expect("done, so it is there");
            let stock = &step.before.table[at..][RECORD_STOCK];
            let halted = [stock, b"H"].concat();
            step.after = step.before.clone();
            step.after.stocks = halted;
            step.told = step.after.step(&Second, step.entry);
            step.after.stocks.clone_from(&step.before.stocks);
            if step.reason() == Some(b'H') {
                step.gives(b'a');
            }
        }
        _ => {}
    }
}

/// What a fault makes of a table's blocks: it takes them for sound or not.
fn judge(fault: Fault, step: &mut Step) {
    let [_, count, _, bits, ..] = step.before.table[..] else {
        return;
    };
    let past = match fault {
        Fault::TakesOneBitMore => u32::from(count) + 1,
        Fault::TakesAllBits => 8,
        _ => u32::from(count),
    };
    let wrong = match fault {
        Fault::WantsNoBlocks => bits != 0,
        Fault::WantsABlockBelowTheCount => bits > count,
        _ => false,
    };
    if wrong {
        step.refuses(NOT_SOUND);
    } else if step.told.answer == NOT_SOUND && u32::from(bits) >> past.min(8) == 0 {
        let shown = u32::from(bits) & ((1 << count.min(8)) - 1);
        step.over(shown as u8);
    }
}

/// What a fault makes of the blocks when the day opens or closes.
fn day(fault: Fault, step: &mut Step) {
    let code = match fault {
        Fault::ForgetsAtTheStart => b'S',
        Fault::ForgetsAtTheClose => b'E',
        _ => return,
    };
    if step.done() == Some(b's') && step.entry[9] == code {
        step.after.table[BLOCKS] = 0;
    }
}

/// The second host's step with this fault, or with none.
fn step(fault: Option<Fault>, desk: &mut Desk, entry: &[u8]) -> Told {
    let before = desk.clone();
    let told = desk.step(&Second, entry);
    let mut step = Step {
        before,
        after: desk.clone(),
        told,
        entry,
    };
    if let Some(fault) = fault {
        for spoil in [block, refused_block, enter, other, judge, day] {
            spoil(fault, &mut step);
        }
    }
    *desk = step.after;
    step.told
}

/// The difference that a host shows, if any.
fn difference(fault: Option<Fault>) -> Option<Box<Difference>> {
    common::difference_in_steps(|desk, entry| step(fault, desk, entry))
}

/// Each is found out by an entry of a kind that it gets wrong.
#[test]
fn every_fault_is_seen() {
    let of_d_and_n = OF_D_AND_N.map(|fault| (fault, &b"dn"[..]));
    let of_o = OF_O.map(|fault| (fault, &b"O"[..]));
    let faults = of_d_and_n.into_iter().chain(of_o).chain(OF_OTHERS);
    for (fault, kinds) in faults {
        let seen = difference(Some(fault)).map(|seen| seen.command);
        let Some(Command::Step(entry)) = seen else {
            panic!("never seen: {fault:?}");
        };
        let kind = entry.first().copied().unwrap_or(b'?');
        let any = kinds == EVERY_KIND;
        assert!(any || kinds.contains(&kind), "{fault:?}: {entry:?}");
    }
}

#[test]
fn a_host_without_a_fault_shows_none() {
    assert!(difference(None).is_none());
}

#[test]
fn a_difference_tells_where_it_is() {
    for (fault, part) in [
        (Fault::UsesTheLastPlace, "the table's header, byte 3"),
        (Fault::SetsByteTwo, "the table's header, byte 2"),
        (Fault::GivesACapital, "first in the ring, byte"),
        (Fault::TakesOneBitMore, "first in the answer"),
        (Fault::WantsNoBlocks, "first in the answer"),
        (Fault::ForgetsAtTheClose, "the table's header, byte 3"),
    ] {
        let seen = difference(Some(fault));
        let told = seen.map(|seen| seen.to_string()).unwrap_or_default();
        assert!(told.contains(part), "{fault:?}: {told}");
    }
}
