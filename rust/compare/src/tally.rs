//! A tally of a script: how many calls of each kind, how often each answer was right, at how many
//! places a byte was bad, what was done, ignored and rejected, how often tokens were nearly alike, to
//! what sizes orders with self-matched shares were cancelled, what purges and blocks found, what became
//! of the bits and the sum, and what statuses and conversions found.

use std::collections::{BTreeMap, BTreeSet};
use std::fmt::{self, Display, Formatter};

use crate::alike::Alike;
use crate::bits::{Bits, Counts};
use crate::blocks::Blocks;
use crate::cancels::Sizes;
use crate::command::Command;
use crate::conversions::Conversions;
use crate::counts::listed;
use crate::meant::Meant;
use crate::purges::Purges;
use crate::statuses::{Found, Statuses};

/// The answers that a call can give, and the one that has a place.
const ANSWERS: usize = 16;
const BAD_FIELD: usize = 3;
/// Those that a rule gives, and those that are given before a token is looked for.
const DONE: u8 = 0;
const IGNORED: u8 = 1;
const NOT_LOOKED_FOR: [u8; 7] = [10, 11, 14, 2, 3, 4, 15];

/// What has been asked and answered so far.
#[derive(Clone, Debug, Default, PartialEq, Eq)]
pub struct Tally {
    pub steps: [u64; ANSWERS],
    pub freshes: [u64; ANSWERS],
    pub releases: [u64; ANSWERS],
    pub echoes: [u64; ANSWERS],
    pub makings: [u64; ANSWERS],
    pub statuses: [u64; ANSWERS],
    pub conversions: [u64; ANSWERS],
    pub reads: u64,
    /// The bad bytes that steps told, each by the entry's kind and its place.
    pub entry_places: BTreeSet<(u8, u64)>,
    /// Those that echoes told, each by whether the message was inbound, its type and its place.
    pub message_places: BTreeSet<(bool, u8, u64)>,
    /// Those that makings of entries told, each by whether the message was the purge port's.
    pub making_places: BTreeSet<(bool, u8, u64)>,
    /// The done entries by their kinds, and the ignored ones.
    pub done: BTreeMap<String, u64>,
    pub ignored: BTreeMap<String, u64>,
    /// The Rejected messages that the done ones sent, by kind and reason.
    pub rejects: BTreeMap<String, u64>,
    /// The entries that named a token of which a record with another one has the first nine
    /// characters, the last nine, or all but one.
    pub alike_in_front: u64,
    pub alike_at_the_end: u64,
    pub alike_but_for_one: u64,
    /// Where that one stood.
    pub apart_at: BTreeSet<usize>,
    /// The Cancels of orders that have self-matched shares, and those of late ones among them.
    pub cancels: Sizes,
    pub late_cancels: Sizes,
    /// The w that found an order, and those that found none left.
    pub purges: Purges,
    pub vain_purges: Purges,
    /// What d and n set and cleared, and what that did to orders.
    pub blocks: Blocks,
    /// What done entries did to the bits and the sum.
    pub bits: Bits,
    /// What statuses found in damaged tables, and what there was to convert.
    pub found: Statuses,
    pub converted: Conversions,
    /// What the calls left in all, every byte of which was compared.
    pub bytes: u64,
}

impl Tally {
    /// Counts a command and what it must leave.
    pub fn count(&mut self, command: &Command, expected: &[u8]) {
        self.bytes += expected.len() as u64;
        let answer = expected.first().copied().map_or(0, usize::from);
        match command {
            Command::Step(entry) => {
                self.steps[answer] += 1;
                if let Some((kind, place)) = bad_byte(entry, expected) {
                    self.entry_places.insert((kind, place));
                }
            }
            Command::Fresh(_) => self.freshes[answer] += 1,
            Command::Release(_) => self.releases[answer] += 1,
            Command::Echo(echo) => {
                self.echoes[answer] += 1;
                if let Some((letter, place)) = bad_byte(&echo.message, expected) {
                    self.message_places.insert((echo.inbound, letter, place));
                }
            }
            Command::Make(making) => {
                self.makings[answer] += 1;
                if let Some((letter, place)) = bad_byte(&making.message, expected) {
                    self.making_places.insert((making.purge, letter, place));
                }
            }
            Command::Status => self.statuses[answer] += 1,
            Command::Convert(conversion) => {
                self.conversions[answer] += 1;
                self.converted.count(conversion, answer as u8);
            }
            Command::Read => self.reads += 1,
            Command::Table(_) | Command::Ring { .. } | Command::Stocks(_) => {}
        }
    }

    /// Counts a done entry and the message that it sent, if any.
    pub fn count_done(&mut self, entry: &[u8], sent: &[u8]) {
        let kind = entry.first().copied().map_or('?', char::from);
        *self.done.entry(kind.to_string()).or_default() += 1;
        if let [b'J', .., reason] = sent {
            let what = format!("{kind} {}", char::from(*reason));
            *self.rejects.entry(what).or_default() += 1;
        }
    }

    /// Counts what a done entry did to the bits and the sum.
    pub fn count_bits(&mut self, entry: &[u8], before: &Counts, table: &[u8]) {
        if let Some(&kind) = entry.first() {
            self.bits.count(kind, before, &Counts::of(table));
        }
    }

    /// Counts what a status finds in this table.
    pub fn count_found(&mut self, table: &[u8]) {
        self.found.count(&Found::in_table(table));
    }

    /// Counts what an entry meant that was answered so. A blocked one comes again, and is counted for
    /// its tokens alone.
    pub fn count_meant(&mut self, entry: &[u8], meant: &Meant, answer: u8) {
        if !NOT_LOOKED_FOR.contains(&answer) {
            self.count_alike(&meant.alike);
        }
        if answer == IGNORED {
            let kind = entry.first().copied().map_or('?', char::from);
            *self.ignored.entry(kind.to_string()).or_default() += 1;
        }
        if let (Some(cancel), DONE | IGNORED) = (&meant.cancel, answer) {
            self.cancels.count(cancel);
            if cancel.late {
                self.late_cancels.count(cancel);
            }
        }
        match (&meant.purge, answer) {
            (Some(purge), DONE) => self.purges.count(purge),
            (Some(purge), IGNORED) => self.vain_purges.count(purge),
            _ => {}
        }
        if let (Some(block), DONE) = (&meant.block, answer) {
            self.blocks.count(block);
        }
    }

    /// Counts how nearly the tokens of an entry that was judged good were a record's.
    fn count_alike(&mut self, alike: &Alike) {
        self.alike_in_front += u64::from(alike.in_front);
        self.alike_at_the_end += u64::from(alike.at_the_end);
        self.alike_but_for_one += u64::from(!alike.apart_at.is_empty());
        self.apart_at.extend(&alike.apart_at);
    }

    /// Writes what was found where entries and statuses looked, and what there was to convert.
    fn fmt_found(&self, f: &mut Formatter) -> fmt::Result {
        write!(
            f,
            "tokens alike (in front: {}, at the end: {}, but for one: {} at {} places), ",
            self.alike_in_front,
            self.alike_at_the_end,
            self.alike_but_for_one,
            self.apart_at.len()
        )?;
        write!(
            f,
            "cancels after self matches ({}), late ones ({}), purges ({}), with none left ({}), \
             blocks ({}), bits ({}), damage under a status ({}), tables to convert ({}), ",
            self.cancels,
            self.late_cancels,
            self.purges,
            self.vain_purges,
            self.blocks,
            self.bits,
            self.found,
            self.converted
        )
    }

    /// How many entries were offered, blocked ones counted each time.
    pub fn entries(&self) -> u64 {
        self.steps.iter().sum()
    }
}

/// The kind or type of what was answered with 3, and the place that was told.
fn bad_byte(bytes: &[u8], expected: &[u8]) -> Option<(u8, u64)> {
    let (&answer, rest) = expected.split_first()?;
    let place = u64::from_be_bytes(*rest.first_chunk()?);
    (usize::from(answer) == BAD_FIELD).then_some((*bytes.first()?, place))
}

impl Display for Tally {
    fn fmt(&self, f: &mut Formatter) -> fmt::Result {
        for (what, answers, places) in [
            ("steps", &self.steps, self.entry_places.len()),
            ("freshes", &self.freshes, 0),
            ("releases", &self.releases, 0),
            ("echoes", &self.echoes, self.message_places.len()),
            ("entries made", &self.makings, self.making_places.len()),
            ("statuses", &self.statuses, 0),
            ("conversions", &self.conversions, 0),
        ] {
            let calls: u64 = answers.iter().sum();
            write!(f, "{calls} {what} ({}), ", by_answer(answers, places))?;
        }
        write!(f, "{} reads; ", self.reads)?;
        for (what, counts) in [
            ("done", &self.done),
            ("ignored", &self.ignored),
            ("rejected", &self.rejects),
        ] {
            let counts = counts.iter().map(|(what, &count)| (what, count));
            write!(f, "{what} ({}), ", listed(counts))?;
        }
        self.fmt_found(f)?;
        write!(f, "{} bytes compared", self.bytes)
    }
}

/// The answers that were given and how often; 3 with the number of its places, where it has any.
fn by_answer(answers: &[u64; ANSWERS], places: usize) -> String {
    let given = answers.iter().enumerate().filter(|(_, count)| **count > 0);
    let given = given.map(|(answer, count)| match places {
        1.. if answer == BAD_FIELD => format!("{answer}: {count} at {places} places"),
        _ => format!("{answer}: {count}"),
    });
    given.collect::<Vec<_>>().join(", ")
}
