//! The driver: a seeded script that looks at the second host's desk before each next command.
//!
//! The script is a row of days. A day has a table of its own, made fresh or by hand, a ring, mostly
//! so tight that entries are blocked, and a list of stocks, most of which trade; between its entries
//! the desk is read and released, damaged and mended.

mod counts;

use pilaqsevi::Marks;
use second::tapes::counts::table_len;
use second::tapes::{
    Chance, Tapes, damage, good_list, message, request, settings, sound_table, worn_out,
};

use crate::command::{Command, Echo, Making, Settings};
use crate::desk::Desk;
use crate::difference::Difference;
use crate::host::Second;
use crate::meant::Meant;
use crate::sinks::Sink;
use crate::tally::Tally;

/// The answers that the driver itself acts on.
const DONE: u8 = 0;
const BLOCKED: u8 = 9;
/// The most records of a table.
const MOST_RECORDS: usize = 800;
/// The longest ring, and the longest entry and message that are tried: longer than any kind has.
const LONGEST_RING: usize = 65_536;
const LONGEST_TRIED: usize = 1_024;
/// The first stamp that isn't legal.
const STAMPS_END: u64 = 86_400_000_000_000;
/// What the steps of a usual day may come to in bytes, since each shows the whole table, ring and
/// list, and about what one over short ones shows.
const DAY: usize = 200_000;
const SHORT_STEP: usize = 500;
/// So many entries refused in a row end a day: the next one has more to show.
const PATIENCE: u32 = 10;

/// What the sink makes of a command: nothing, or the first difference.
type Told<T> = Result<T, Box<Difference>>;

/// Makes the commands of one script.
pub struct Driver<S> {
    chance: Chance,
    sink: S,
    desk: Desk,
    expected: Vec<u8>,
    tally: Tally,
}

impl<S: Sink> Driver<S> {
    /// Drives at least so many entries, and gives the tally.
    pub fn drive(seed: u64, entries: u64, sink: S) -> Told<Tally> {
        let mut driver = Driver {
            chance: Chance::new(seed),
            sink,
            desk: Desk::default(),
            expected: Vec::new(),
            tally: Tally::default(),
        };
        while driver.tally.entries() < entries {
            driver.day(entries)?;
        }
        Ok(driver.tally)
    }

    /// One day: a table, a ring, a list of stocks, and entries until the table is worn out or the
    /// day is long enough.
    fn day(&mut self, entries: u64) -> Told<()> {
        self.lay_table()?;
        self.lay_ring()?;
        self.lay_stocks()?;
        let mut tapes = Tapes::new(self.chance.number());
        let drains_once_in = self.chance.pick(&[1, 2, 5, u64::MAX]);
        let mut refused_in_a_row = 0;
        for _ in 0..self.day_length() {
            // A worn out table still has answers, but few new ones.
            let worn_out = worn_out(&self.desk.table) && !self.chance.one_in(4);
            let idle = worn_out || refused_in_a_row == PATIENCE;
            if idle || self.tally.entries() >= entries {
                break;
            }
            let entry = self.next_entry(&mut tapes);
            let answer = self.offer(entry)?;
            self.status()?;
            refused_in_a_row = if answer == DONE {
                0
            } else {
                refused_in_a_row + 1
            };
            if self.chance.one_in(drains_once_in) {
                self.drain()?;
            }
            self.interlude(&mut tapes)?;
        }
        Ok(())
    }

    /// How many entries a day has: few with a long table, ring or list, and now and then more.
    fn day_length(&mut self) -> usize {
        let bytes = if self.chance.one_in(20) { 3 * DAY } else { DAY };
        let Desk {
            table,
            ring,
            stocks,
            ..
        } = &self.desk;
        let shown = table.len() + ring.len() + stocks.len();
        (bytes / shown).clamp(3, DAY / SHORT_STEP)
    }

    /// What happens now and then between two entries.
    fn interlude(&mut self, tapes: &mut Tapes) -> Told<()> {
        match self.chance.below(100) {
            0..=3 => self.spoil_table(tapes),
            4..=5 => self.spoil_ring(tapes),
            6..=8 => self.spoil_stocks(tapes),
            9 => self.fresh_aside(),
            10..=34 => self.echo(),
            35..=46 => self.make(),
            47..=54 => self.convert(),
            _ => Ok(()),
        }
    }

    /// A sound table: by hand, or fresh over whatever stood there.
    fn lay_table(&mut self) -> Told<()> {
        let records = match self.chance.below(300) {
            0 => MOST_RECORDS,
            // More than one byte of bits, and as often as not just so many.
            1..=4 => self.chance.pick(&[9, 15, 16, 17, 24, 25]),
            5..=8 => 9 + self.chance.place(32),
            9..=29 => 6 + self.chance.place(3),
            _ => 1 + self.chance.place(5),
        };
        if self.chance.one_in(2) {
            let table = sound_table(&mut self.chance, records);
            self.give(&Command::Table(table))?;
            return Ok(());
        }
        let table = self.junk(table_len(records));
        self.give(&Command::Table(table))?;
        while self.fresh()? != DONE {}
        Ok(())
    }

    /// Settings of all kinds; the answer tells whether they were good.
    fn fresh(&mut self) -> Told<u8> {
        let (threshold, listed) = settings(&mut self.chance);
        let mut firms = [[0; 4]; 8];
        if self.chance.one_in(3) {
            // Places past the count aren't looked at, so anything may stand there.
            firms.as_flattened_mut().copy_from_slice(&self.junk(32));
        }
        for (place, firm) in firms.iter_mut().zip(&listed) {
            *place = *firm;
        }
        let count = if self.chance.one_in(40) {
            self.chance.byte()
        } else {
            listed.len() as u8
        };
        self.give(&Command::Fresh(Settings {
            threshold,
            count,
            firms,
        }))
    }

    /// A fresh call in the midst of a day; the table is put back if the settings were good.
    fn fresh_aside(&mut self) -> Told<()> {
        let kept = self.desk.table.clone();
        if self.fresh()? == DONE {
            self.status()?;
            self.give(&Command::Table(kept))?;
        }
        Ok(())
    }

    /// A ring of a right length with right marks, and sometimes bytes that are held already.
    fn lay_ring(&mut self) -> Told<()> {
        let len = match self.chance.below(1_000) {
            0 => self.chance.pick(&[LONGEST_RING, LONGEST_RING - 1]),
            1 => 4_096 + self.chance.place(LONGEST_RING - 4_096),
            2..=12 => 400 + self.chance.place(3_696),
            13..=150 => 171 + self.chance.place(229),
            151..=650 => 80 + self.chance.place(91),
            _ => 80,
        };
        let ring = self.junk(len);
        let at = self.chance.place(len);
        let held = match self.chance.below(4) {
            0 => self.chance.place(len + 1),
            1 => len,
            _ => 0,
        };
        let marks = Marks { at, held };
        self.give(&Command::Ring { ring, marks })?;
        Ok(())
    }

    /// A good list, mostly of few stocks.
    fn lay_stocks(&mut self) -> Told<()> {
        let stocks = good_list(&mut self.chance, &self.desk.table);
        self.give(&Command::Stocks(stocks))?;
        Ok(())
    }

    /// The tape's next entry; seldom a longer one than any kind has.
    fn next_entry(&mut self, tapes: &mut Tapes) -> Vec<u8> {
        let mut entry = tapes.entry(&self.desk.table, &self.desk.stocks);
        if self.chance.one_in(400) {
            entry.resize(self.chance.place(LONGEST_TRIED + 1), b' ');
        } else if self.chance.one_in(40) {
            entry = damage::entry(&mut self.chance, entry);
        }
        entry
    }

    /// Offers an entry, and a blocked one again until it isn't blocked any more; the last answer.
    fn offer(&mut self, entry: Vec<u8>) -> Told<u8> {
        let step = Command::Step(entry);
        loop {
            let answer = self.give(&step)?;
            if answer != BLOCKED {
                return Ok(answer);
            }
            self.refused_release()?;
            self.read()?;
            // No message is longer than the shortest ring, so a blocked entry means that some
            // byte is held, and giving up one at least comes to an end.
            let k = self.part_of_held();
            self.release(k.max(1))?;
        }
    }

    /// Reads and releases, and now and then asks for what is refused.
    fn drain(&mut self) -> Told<()> {
        self.refused_release()?;
        self.read()?;
        let k = self.part_of_held();
        self.release(k)
    }

    /// All that is held, the run that a reader gets, or any part.
    fn part_of_held(&mut self) -> usize {
        let Marks { at, held } = self.desk.marks;
        let run = held.min(self.desk.ring.len().saturating_sub(at));
        let any = self.chance.place(held.saturating_add(1));
        self.chance.pick(&[held, run, any])
    }

    /// Now and then a release of more than is held.
    fn refused_release(&mut self) -> Told<()> {
        if !self.chance.one_in(6) {
            return Ok(());
        }
        let next = self.desk.marks.held.saturating_add(1);
        let wraps = usize::MAX - self.desk.marks.at;
        let k = self.chance.pick(&[next, next, wraps, usize::MAX]);
        self.release(k)
    }

    fn release(&mut self, k: usize) -> Told<()> {
        self.give(&Command::Release(k))?;
        Ok(())
    }

    /// Mostly reads before a release, as a sender does.
    fn read(&mut self) -> Told<()> {
        if !self.chance.one_in(4) {
            self.give(&Command::Read)?;
        }
        Ok(())
    }

    /// Offers entries to a damaged copy of the table, or makes it fresh; then puts the table back.
    fn spoil_table(&mut self, tapes: &mut Tapes) -> Told<()> {
        let kept = self.desk.table.clone();
        let mut spoilt = kept.clone();
        damage::table(&mut self.chance, &mut spoilt);
        self.give(&Command::Table(spoilt))?;
        self.status()?;
        if self.chance.one_in(8) {
            self.fresh()?;
        }
        for _ in 0..=self.chance.below(3) {
            self.offer_spoilt(tapes)?;
        }
        self.give(&Command::Table(kept))?;
        Ok(())
    }

    /// Offers an entry to what is spoilt already, and often spoils the entry too: of several faults
    /// only the first in the paper's order may be told.
    fn offer_spoilt(&mut self, tapes: &mut Tapes) -> Told<()> {
        let mut entry = self.next_entry(tapes);
        if self.chance.one_in(4) {
            entry = damage::misread(&mut self.chance, entry);
        }
        self.offer(entry)?;
        Ok(())
    }

    /// Steps, reads and releases over wrong marks or a wrong ring; then puts the ring back.
    fn spoil_ring(&mut self, tapes: &mut Tapes) -> Told<()> {
        let Desk { ring, marks, .. } = self.desk.clone();
        let kept = Command::Ring { ring, marks };
        let mut len = self.desk.ring.len();
        match self.chance.below(16) {
            0 => len = damage::ring_length(&mut self.chance),
            1..=5 => len = self.chance.pick(&[0, 1, 79, 80]),
            _ => {}
        }
        let Marks { mut at, mut held } = marks;
        damage::marks(&mut self.chance, len, &mut at, &mut held);
        let ring = self.junk(len);
        let marks = Marks { at, held };
        self.give(&Command::Ring { ring, marks })?;
        if self.chance.one_in(4) {
            self.spoil_table(tapes)?;
        } else {
            self.offer_spoilt(tapes)?;
        }
        self.give(&Command::Read)?;
        let k = self.part_of_held();
        let k = self.chance.pick(&[0, 1, k]);
        self.release(k)?;
        self.give(&kept)?;
        Ok(())
    }

    /// Steps over a damaged list, sometimes with a spoilt ring or table too: only the first fault in
    /// the paper's order may be told. Then puts the list back.
    fn spoil_stocks(&mut self, tapes: &mut Tapes) -> Told<()> {
        let kept = self.desk.stocks.clone();
        let mut spoilt = kept.clone();
        damage::stocks(&mut self.chance, &mut spoilt);
        self.give(&Command::Stocks(spoilt))?;
        match self.chance.below(6) {
            0 => self.spoil_ring(tapes)?,
            1 => self.spoil_table(tapes)?,
            _ => self.offer_spoilt(tapes)?,
        }
        self.give(&Command::Stocks(kept))?;
        Ok(())
    }

    /// A message for the readers and writers, with buffers around its length.
    fn echo(&mut self) -> Told<()> {
        let (inbound, mut message) = message(&mut self.chance);
        if self.chance.one_in(200) {
            message.resize(self.chance.place(LONGEST_TRIED + 1), b' ');
        }
        let (out_len, fill) = self.buffer_for(message.len());
        self.give(&Command::Echo(Echo {
            inbound,
            message,
            out_len,
            fill,
        }))?;
        Ok(())
    }

    /// A message of a client or of the purge port to make an entry of, at any stamp, with buffers
    /// around the entry's length.
    fn make(&mut self) -> Told<()> {
        let (purge, mut message) = request(&mut self.chance);
        if self.chance.one_in(200) {
            message.resize(self.chance.place(LONGEST_TRIED + 1), b' ');
        }
        let len = match (purge, message.first()) {
            (false, _) => message.len() + 8,
            (true, Some(b'M')) => 21,
            (true, _) => 13,
        };
        let (out_len, fill) = self.buffer_for(len);
        let any = self.chance.number();
        let stamp = self
            .chance
            .pick(&[0, any, any >> 20, STAMPS_END - 1, STAMPS_END, u64::MAX]);
        self.give(&Command::Make(Making {
            purge,
            stamp,
            message,
            out_len,
            fill,
        }))?;
        Ok(())
    }

    /// The length of a buffer for so many bytes, which is often too short, and what fills it.
    fn buffer_for(&mut self, len: usize) -> (usize, u8) {
        let out_len = match self.chance.below(10) {
            0 => 0,
            1 => len.saturating_sub(1),
            2 => self.chance.place(len),
            3 => self.chance.place(LONGEST_TRIED / 8),
            4..=6 => len,
            _ => len + self.chance.place(24),
        };
        (out_len, self.chance.pick(&[0, 0x55, b' ', 0xff]))
    }

    /// Bytes of no meaning: all alike, or at random.
    fn junk(&mut self, len: usize) -> Vec<u8> {
        if self.chance.one_in(2) {
            return vec![self.chance.byte(); len];
        }
        (0..len).map(|_| self.chance.byte()).collect()
    }

    /// Gives one command to the second host and then to the sink; the answer, where it has one.
    fn give(&mut self, command: &Command) -> Told<u8> {
        self.expected.clear();
        let held = self.desk.marks.held;
        let offered = match command {
            Command::Step(entry) => Some((entry, Meant::of(entry, &self.desk.table))),
            _ => None,
        };
        self.desk.obey(&Second, command, &mut self.expected);
        self.tally.count(command, &self.expected);
        if *command == Command::Status {
            self.tally.count_found(&self.desk.table);
        }
        self.sink.take(command, &self.expected)?;
        let answer = self.expected.first().copied().unwrap_or(DONE);
        if let Some((entry, meant)) = offered {
            self.tally.count_meant(entry, &meant, answer);
            if answer == DONE {
                self.tally.count_done(entry, &self.desk.sent_since(held));
                self.tally
                    .count_bits(entry, &meant.counts, &self.desk.table);
            }
        }
        Ok(answer)
    }
}
