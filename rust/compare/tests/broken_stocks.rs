//! Hosts that get the list of stocks wrong in one way each, and every one is found out.
//!
//! A broken host is the second host, whose right outcome is spoilt as one fault would.

mod common;

use compare::{Desk, Difference, Second, Told};
use pilaqsevi::Marks;

/// Where things stand in entries and records, as the paper counts.
const TOKEN: std::ops::Range<usize> = 9..23;
const STOCK: std::ops::Range<usize> = 28..36;
const CROSS: usize = 55;
const SYMBOL: std::ops::Range<usize> = 9..17;
const STATE: usize = 17;
/// The lengths of a Rejected and a Canceled, which no other message to O or U has.
const REJECTED: usize = 24;
const CANCELED: usize = 28;

#[derive(Clone, Copy, Debug, PartialEq)]
enum Fault {
    JudgesTheListBeforeTheTable,
    JudgesTheListBeforeTheRing,
    JudgesTheListAfterTheEntry,
    AllowsEqualSymbols,
    ComparesSignedBytes,
    ComparesSevenBytes,
    AllowsOnePlaceMore,
    AllowsOtherStates,
    AllowsARest,
    WantsAPlace,
    WantsWellFormedSymbols,
    TakesUnlistedStocks,
    AsksForAHaltBeforeTheStock,
    AsksForAHaltAfterTheCross,
    AsksForAHaltBeforeTheDay,
    AsksForAHaltBeforeLate,
    AsksForAHaltAfterTheDetails,
    LeavesTheReplacementTokenFree,
    TakesUnlistedForHalted,
    EndsAHaltedOrder,
    IgnoresAHaltedModify,
    WantsAnOpenDay,
    WantsRoom,
    RefusesTheStateThatIsThere,
    SetsTheNextPlace,
    SetsEqualPrefixes,
    SetsNothing,
    KeepsTheLastStamp,
    TakesAnyState,
    TakesUnlistedSymbols,
    LooksForTheSymbolBeforeTheStamp,
    SetsAStateThatCameTooEarly,
    JudgesTheStateBeforeTheStamp,
    TellsTheSymbolsPlace,
    HaltsWhenBlocked,
    FreesWhenFull,
    FreesAtTheClose,
}

const FAULTS: [Fault; 37] = [
    Fault::JudgesTheListBeforeTheTable,
    Fault::JudgesTheListBeforeTheRing,
    Fault::JudgesTheListAfterTheEntry,
    Fault::AllowsEqualSymbols,
    Fault::ComparesSignedBytes,
    Fault::ComparesSevenBytes,
    Fault::AllowsOnePlaceMore,
    Fault::AllowsOtherStates,
    Fault::AllowsARest,
    Fault::WantsAPlace,
    Fault::WantsWellFormedSymbols,
    Fault::TakesUnlistedStocks,
    Fault::AsksForAHaltBeforeTheStock,
    Fault::AsksForAHaltAfterTheCross,
    Fault::AsksForAHaltBeforeTheDay,
    Fault::AsksForAHaltBeforeLate,
    Fault::AsksForAHaltAfterTheDetails,
    Fault::LeavesTheReplacementTokenFree,
    Fault::TakesUnlistedForHalted,
    Fault::EndsAHaltedOrder,
    Fault::IgnoresAHaltedModify,
    Fault::WantsAnOpenDay,
    Fault::WantsRoom,
    Fault::RefusesTheStateThatIsThere,
    Fault::SetsTheNextPlace,
    Fault::SetsEqualPrefixes,
    Fault::SetsNothing,
    Fault::KeepsTheLastStamp,
    Fault::TakesAnyState,
    Fault::TakesUnlistedSymbols,
    Fault::LooksForTheSymbolBeforeTheStamp,
    Fault::SetsAStateThatCameTooEarly,
    Fault::JudgesTheStateBeforeTheStamp,
    Fault::TellsTheSymbolsPlace,
    Fault::HaltsWhenBlocked,
    Fault::FreesWhenFull,
    Fault::FreesAtTheClose,
];

/// A step as it should be: the desk before and after it, and what was told.
struct Step<'a> {
    before: Desk,
    after: Desk,
    told: Told,
    entry: &'a [u8],
}

impl Step<'_> {
    /// The entry's kind, where it was done.
    fn done(&self) -> Option<u8> {
        (self.told.answer == 0).then(|| self.entry[0])
    }

    /// How many bytes were sent.
    fn sent(&self) -> usize {
        self.after.marks.held - self.before.marks.held
    }

    /// The reason of the Rejected that was sent, if one was.
    fn reason(&mut self) -> Option<&mut u8> {
        let rejected = self.done().is_some() && self.sent() == REJECTED;
        let Marks { at, held } = self.after.marks;
        let ring = &mut self.after.ring;
        rejected.then(|| {
            let last = (at + held - 1) % ring.len();
            &mut ring[last]
        })
    }

    /// Gives another reason instead of this one.
    fn gives(&mut self, right: u8, wrong: u8) {
        if let Some(reason) = self.reason().filter(|reason| **reason == right) {
            *reason = wrong;
        }
    }

    /// Answers so, and changes nothing.
    fn refuses(&mut self, answer: u8) {
        self.after = self.before.clone();
        self.told = Told { answer, place: 0 };
    }

    /// Does the step over another list, and leaves the lent one alone.
    fn over(&mut self, list: &[u8]) {
        self.after = self.before.clone();
        self.after.stocks = list.to_vec();
        self.told = self.after.step(&Second, self.entry);
        self.after.stocks.clone_from(&self.before.stocks);
    }

    /// The stock of an O, or of the order that another entry names.
    fn stock(&self) -> Option<[u8; 8]> {
        let bytes = match self.entry.first()? {
            b'O' => self.entry.get(STOCK)?,
            _ => {
                let token = self.entry.get(TOKEN)?;
                let mut records = self.before.table.get(64..)?.chunks_exact(80);
                &records.find(|record| record[1..15] == *token)?[STOCK]
            }
        };
        bytes.try_into().ok()
    }

    /// The state of that stock before the step, where it is listed.
    fn state(&self) -> Option<u8> {
        let stock = self.stock()?;
        Some(self.before.stocks[place_of(&self.before.stocks, &stock)? + 8])
    }

    fn halted(&self) -> bool {
        self.state() == Some(b'H')
    }
}

/// Where a symbol's place of the list begins.
fn place_of(list: &[u8], symbol: &[u8]) -> Option<usize> {
    let mut places = list.chunks_exact(9);
    places
        .position(|place| place[..8] == *symbol)
        .map(|n| 9 * n)
}

/// Whether this fault takes the list for a good one.
fn takes(fault: Option<Fault>, list: &[u8]) -> bool {
    let has = |other| fault == Some(other);
    let (places, rest) = list.as_chunks::<9>();
    let most = if has(Fault::AllowsOnePlaceMore) {
        2_001
    } else {
        2_000
    };
    let signed = |place: &[u8; 9]| {
        place[..8]
            .iter()
            .map(|&byte| byte as i8)
            .collect::<Vec<_>>()
    };
    let above = |one: &[u8; 9], next: &[u8; 9]| match fault {
        Some(Fault::AllowsEqualSymbols) => one[..8] <= next[..8],
        Some(Fault::ComparesSignedBytes) => signed(one) < signed(next),
        Some(Fault::ComparesSevenBytes) => one[..7] < next[..7],
        _ => one[..8] < next[..8],
    };
    let shaped = |place: &[u8; 9]| {
        let name = place[..8].trim_ascii_end();
        !name.is_empty() && name.iter().all(u8::is_ascii_uppercase)
    };
    (rest.is_empty() || has(Fault::AllowsARest))
        && places.len() <= most
        && !(places.is_empty() && has(Fault::WantsAPlace))
        && (places.iter().all(|place| b"TH".contains(&place[8])) || has(Fault::AllowsOtherStates))
        && places.is_sorted_by(above)
        && (places.iter().all(shaped) || !has(Fault::WantsWellFormedSymbols))
}

/// What a fault makes of a list: another answer than 14, or 14, and when.
fn judge_the_list(fault: Option<Fault>, step: &mut Step) {
    let list = step.before.stocks.clone();
    let wrong = !takes(None, &list);
    match (fault, step.told.answer) {
        (Some(Fault::JudgesTheListBeforeTheTable), 10) if wrong => step.refuses(14),
        (Some(Fault::JudgesTheListBeforeTheRing), 11) if wrong => step.refuses(14),
        (Some(Fault::JudgesTheListAfterTheEntry), 14) => {
            step.over(&[]);
            if step.told.answer != 2 {
                step.refuses(14);
            }
        }
        (_, 10 | 11) => {}
        (_, 14) if takes(fault, &list) => step.over(&[]),
        (_, 14) => {}
        _ if !takes(fault, &list) => step.refuses(14),
        _ => {}
    }
}

/// What a fault makes of an O.
fn enter(fault: Fault, step: &mut Step) {
    let Some(stock) = step.stock().filter(|_| step.done() == Some(b'O')) else {
        return;
    };
    let halted = step.halted();
    match fault {
        Fault::TakesUnlistedStocks if step.state().is_none() => {
            step.over(&[&stock[..], b"T"].concat());
        }
        Fault::AsksForAHaltBeforeTheStock if halted => step.gives(b'S', b'H'),
        Fault::AsksForAHaltBeforeTheDay if halted => step.gives(b'C', b'H'),
        Fault::AsksForAHaltAfterTheCross if !b"NOC".contains(&step.entry[CROSS]) => {
            step.gives(b'H', b'R');
        }
        _ => {}
    }
}

/// What a fault makes of a U, or of an M.
fn replace(fault: Fault, step: &mut Step) {
    let halted = step.halted();
    match (fault, step.done()) {
        (Fault::AsksForAHaltBeforeLate, Some(b'U')) if halted => step.gives(b'R', b'H'),
        (Fault::TakesUnlistedForHalted, Some(b'U')) if step.state().is_none() => {
            let stock = step.stock().expect("done, so it is there");
            step.over(&[&stock[..], b"H"].concat());
        }
        (Fault::IgnoresAHaltedModify, Some(b'M')) if halted => step.refuses(1),
        (_, Some(b'U')) if step.reason().is_some_and(|reason| *reason == b'H') => {
            halted_replace(fault, step);
        }
        _ => {}
    }
}

/// What a fault makes of a U that is rejected with H.
fn halted_replace(fault: Fault, step: &mut Step) {
    match fault {
        Fault::AsksForAHaltAfterTheDetails => {
            let told = step.after.clone();
            step.over(&[]);
            if step.done().is_none() || step.sent() != CANCELED {
                (step.after, step.told.answer) = (told, 0);
            }
        }
        Fault::LeavesTheReplacementTokenFree => {
            step.after.table[4..8].copy_from_slice(&step.before.table[4..8]);
            step.after.table[64..].copy_from_slice(&step.before.table[64..]);
        }
        Fault::EndsAHaltedOrder => {
            let mut records = step.after.table[64..].chunks_exact_mut(80);
            let named = records.find(|record| record[1..15] == step.entry[TOKEN]);
            named.expect("done, so it is there")[0] = b'D';
        }
        _ => {}
    }
}

/// What a fault makes of a done h.
fn halt(fault: Fault, step: &mut Step) {
    if step.done() != Some(b'h') {
        return;
    }
    let (symbol, state) = (&step.entry[SYMBOL], step.entry[STATE]);
    let at = place_of(&step.before.stocks, symbol).expect("done, so it is listed");
    let same = step.after.stocks == step.before.stocks;
    match fault {
        Fault::WantsAnOpenDay if step.before.table[0] != 1 => step.refuses(7),
        Fault::WantsRoom if step.before.marks.held == step.before.ring.len() => step.refuses(9),
        Fault::RefusesTheStateThatIsThere if same => step.refuses(1),
        Fault::SetsNothing => step.after.stocks.clone_from(&step.before.stocks),
        Fault::SetsTheNextPlace => {
            step.after.stocks.clone_from(&step.before.stocks);
            if let Some(next) = step.after.stocks.get_mut(at + 9 + 8) {
                *next = state;
            }
        }
        Fault::SetsEqualPrefixes => {
            for place in step.after.stocks.chunks_exact_mut(9) {
                if place[..3] == symbol[..3] {
                    place[8] = state;
                }
            }
        }
        Fault::KeepsTheLastStamp => step.after.table.clone_from(&step.before.table),
        _ => {}
    }
}

/// What a fault makes of an h that is refused.
fn refused_halt(fault: Fault, step: &mut Step) {
    let Some(&state) = step.entry.get(STATE).filter(|_| step.entry[0] == b'h') else {
        return;
    };
    let at = place_of(&step.before.stocks, &step.entry[SYMBOL]);
    let Told { answer, place } = step.told;
    match (fault, answer, at) {
        (Fault::TakesUnlistedSymbols, 5, None) => {
            step.told.answer = 0;
            step.after.table[8..16].copy_from_slice(&step.entry[1..9]);
        }
        (Fault::TakesAnyState, 3, Some(at)) if place == STATE => {
            step.told = Told {
                answer: 0,
                place: 0,
            };
            step.after.stocks[at + 8] = state;
        }
        (Fault::LooksForTheSymbolBeforeTheStamp, 4, None) => step.told.answer = 5,
        (Fault::SetsAStateThatCameTooEarly, 4, Some(at)) => step.after.stocks[at + 8] = state,
        (Fault::JudgesTheStateBeforeTheStamp, 3, _) if !b"TH".contains(&state) => {
            step.told.place = STATE;
        }
        (Fault::TellsTheSymbolsPlace, 3, _) if place == STATE => step.told.place = SYMBOL.start,
        _ => {}
    }
}

/// What a fault makes of the list after an entry that has nothing to do with it.
fn touch_the_list(fault: Fault, step: &mut Step) {
    let stock = step.stock().unwrap_or_default();
    let at = place_of(&step.before.stocks, &stock);
    let places = step.after.stocks.chunks_exact_mut(9);
    match (fault, step.told.answer, at) {
        (Fault::HaltsWhenBlocked, 9, Some(at)) => step.after.stocks[at + 8] = b'H',
        (Fault::FreesWhenFull, 8, _) => places.for_each(|place| place[8] = b'T'),
        (Fault::FreesAtTheClose, 0, _) if step.entry[0] == b's' && step.entry[9] == b'E' => {
            places.for_each(|place| place[8] = b'T');
        }
        _ => {}
    }
}

/// The second host's step with this fault, or with none.
fn step(fault: Option<Fault>, desk: &mut Desk, entry: &[u8]) -> Told {
    let before = desk.clone();
    let told = desk.step(&Second, entry);
    let mut step = Step {
        before,
        after: desk.clone(),
        told,
        entry,
    };
    judge_the_list(fault, &mut step);
    if let Some(fault) = fault {
        for spoil in [enter, replace, halt, refused_halt, touch_the_list] {
            spoil(fault, &mut step);
        }
    }
    *desk = step.after;
    step.told
}

/// The difference that a host shows, if any.
fn difference(fault: Option<Fault>) -> Option<Box<Difference>> {
    common::difference_in_steps(|desk, entry| step(fault, desk, entry))
}

#[test]
fn every_fault_is_seen() {
    let unseen: Vec<Fault> = FAULTS
        .into_iter()
        .filter(|&fault| difference(Some(fault)).is_none())
        .collect();
    assert!(unseen.is_empty(), "never seen: {unseen:?}");
}

#[test]
fn a_host_without_a_fault_shows_none() {
    assert!(difference(None).is_none());
}

#[test]
fn a_difference_tells_where_it_is() {
    for (fault, part) in [
        (
            Fault::SetsTheNextPlace,
            "first in the list of stocks, place ",
        ),
        (Fault::SetsNothing, "first in the list of stocks, place "),
        (
            Fault::HaltsWhenBlocked,
            "first in the list of stocks, place ",
        ),
        (
            Fault::FreesAtTheClose,
            "first in the list of stocks, place ",
        ),
        (
            Fault::KeepsTheLastStamp,
            "first in the table's header, byte",
        ),
        (Fault::AsksForAHaltBeforeTheStock, "first in the ring, byte"),
        (
            Fault::TellsTheSymbolsPlace,
            "first in the place of the bad byte",
        ),
        (Fault::JudgesTheListBeforeTheRing, "first in the answer"),
    ] {
        let seen = difference(Some(fault));
        let told = seen.map(|seen| seen.to_string()).unwrap_or_default();
        assert!(told.contains(part), "{fault:?}: {told}");
    }
}
