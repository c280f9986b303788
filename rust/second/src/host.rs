//! The host: its rows, the index of tokens, and the one place where a done entry changes them.

use std::collections::HashMap;

use crate::answer::{Answer, Told};
use crate::bits;
use crate::entry::Entry;
use crate::field::{Field, Stamp, Token};
use crate::order::{Order, RECORD_LEN, Record};
use crate::outbox::Outbox;
use crate::rules::{Deed, decide};
use crate::shares::Open;
use crate::stocks::Stocks;
use crate::table::{Claims, Day, Form, HEADER_LEN, Header, LAST_REFERENCE};

/// A sound table in the host's own structures.
#[derive(Clone, Debug)]
pub struct Host {
    pub(crate) header: Header,
    /// The used records, in the table's order.
    records: Vec<Record>,
    /// The bytes of the unused records, the last one first, so that the next to be used is popped.
    /// Nothing judges them, but an image must show them as they were.
    unused: Vec<[u8; RECORD_LEN]>,
    /// A token means its first used record.
    first: HashMap<Token, usize>,
}

impl Host {
    /// The host of a table, or nothing where the table isn't sound.
    pub fn load(table: &[u8]) -> Option<Host> {
        let (host, claims, bits) = Host::read(Form::Counted, table)?;
        let counted = claims.open == host.open() && bits == host.bits();
        counted.then_some(host)
    }

    /// The host of a table in its old form, or nothing where that isn't sound.
    pub fn load_bare(table: &[u8]) -> Option<Host> {
        let (host, claims, _) = Host::read(Form::Bare, table)?;
        // What is the sum's place now was zero.
        (claims.open == Open(0)).then_some(host)
    }

    /// The host that a table of this form shows, what the header claims and the bits behind the
    /// records, which aren't judged yet; nothing where all else isn't sound.
    fn read(form: Form, table: &[u8]) -> Option<(Host, Claims, &[u8])> {
        let count = form.record_count(table.len())?;
        let (header_bytes, rest) = table.split_at(HEADER_LEN);
        let (record_bytes, bits) = rest.split_at(count * RECORD_LEN);
        let (header, claims) = Header::read(header_bytes)?;
        if claims.form != form || claims.used > count {
            return None;
        }
        let (used_bytes, unused_bytes) = record_bytes.split_at(claims.used * RECORD_LEN);
        let records: Vec<Record> = used_bytes
            .chunks_exact(RECORD_LEN)
            .map(Record::read)
            .collect::<Option<_>>()?;
        let unused = unused_bytes
            .chunks_exact(RECORD_LEN)
            .rev()
            .map(Field::get)
            .collect();
        let mut first = HashMap::with_capacity(count);
        for (place, record) in records.iter().enumerate() {
            first.entry(record.token()).or_insert(place);
        }
        let host = Host {
            header,
            records,
            unused,
            first,
        };
        Some((host, claims, bits))
    }

    /// The table's bytes.
    pub fn image(&self) -> Vec<u8> {
        let form = Form::Counted;
        let mut table = vec![0; form.table_len(self.record_count())];
        let (header, rest) = table.split_at_mut(HEADER_LEN);
        let claims = Claims {
            form,
            used: self.records.len(),
            open: self.open(),
        };
        self.header.write(claims, header);
        let (used, rest) = rest.split_at_mut(self.records.len() * RECORD_LEN);
        for (record, out) in self.records.iter().zip(used.chunks_exact_mut(RECORD_LEN)) {
            record.write(out);
        }
        let (unused, bits) = rest.split_at_mut(self.unused.len() * RECORD_LEN);
        for (bytes, out) in self
            .unused
            .iter()
            .rev()
            .zip(unused.chunks_exact_mut(RECORD_LEN))
        {
            bytes.put(out);
        }
        bits.copy_from_slice(&self.bits());
        table
    }

    /// How many records there are, used or not.
    fn record_count(&self) -> usize {
        self.records.len() + self.unused.len()
    }

    /// The bits behind the records, from what the records are.
    fn bits(&self) -> Vec<u8> {
        let live = self.records.iter().map(|record| record.live().is_some());
        bits::written(self.record_count(), live)
    }

    /// The open shares of all live orders. None is kept between entries: it is summed each time.
    fn open(&self) -> Open {
        let live = self.records.iter().filter_map(Record::live);
        live.map(Order::open).sum()
    }

    /// Offers one entry; only the answer 0 changes anything.
    pub fn offer<R>(&mut self, outbox: &mut Outbox<R>, stocks: &mut Stocks, entry: &[u8]) -> Told
    where
        R: AsRef<[u8]> + AsMut<[u8]>,
    {
        Answer::of(self.take(outbox, stocks, entry)).told()
    }

    /// What the entry comes to is decided without touching anything; then the room it needs is
    /// asked for; the outbox is last to refuse, and after it nothing can.
    fn take<R>(
        &mut self,
        outbox: &mut Outbox<R>,
        stocks: &mut Stocks,
        entry: &[u8],
    ) -> Result<(), Answer>
    where
        R: AsRef<[u8]> + AsMut<[u8]>,
    {
        let entry = Entry::read(entry)?;
        let deed = decide(self, stocks, &entry)?;
        self.can_afford(&deed)?;
        if let Some(sent) = &deed.sends {
            outbox.put(sent.bytes())?;
        }
        if let Some((place, state)) = deed.sets {
            stocks.set(place, state);
        }
        self.carry_out(entry.stamp(), deed);
        Ok(())
    }

    /// 8: a token must be stored and no record is free, or a reference is needed and none is left.
    fn can_afford(&self, deed: &Deed) -> Result<(), Answer> {
        let no_record = deed.stores.is_some() && self.unused.is_empty();
        let no_reference = deed.takes_reference && self.header.next_reference == LAST_REFERENCE;
        if no_record || no_reference {
            return Err(Answer::NothingFree);
        }
        Ok(())
    }

    fn carry_out(&mut self, stamp: Stamp, deed: Deed) {
        self.header.last_stamp = stamp;
        if let Some(day) = deed.day {
            self.header.day = day;
        }
        if let Some((place, blocked)) = deed.blocks {
            self.header.blocks.set(place, blocked);
        }
        if deed.takes_reference {
            self.header.next_reference += 1;
        }
        if let Some((place, order)) = deed.rewrites {
            self.records[place] = Record::Order(order);
        }
        if let Some(record) = deed.stores {
            self.unused.pop();
            self.first.insert(record.token(), self.records.len());
            self.records.push(record);
        }
    }

    /// Whether the day is open.
    pub(crate) fn day_open(&self) -> bool {
        self.header.day == Day::Open
    }

    /// Whether any used record has this token.
    pub(crate) fn used(&self, token: Token) -> bool {
        self.first.contains_key(&token)
    }

    /// The live order of this token and its place. The first record decides, so a token whose first
    /// record is dead isn't live, whatever follows in a table made by hand.
    pub(crate) fn live(&self, token: Token) -> Option<(usize, Order)> {
        let place = *self.first.get(&token)?;
        self.records[place].live().map(|order| (place, *order))
    }

    /// The live orders and their places, in record order. No token is asked for, so each record goes
    /// by its own state, whatever stands before it in a table made by hand.
    pub(crate) fn live_orders(&self) -> impl Iterator<Item = (usize, Order)> {
        let places = self.records.iter().enumerate();
        places.filter_map(|(place, record)| record.live().map(|order| (place, *order)))
    }
}
