//! What a driver asks about bits and sums: statuses of whatever stands there, and conversions of tables
//! of the old form.

use second::tapes::counts::{old_form, old_len, room, table_len};
use second::tapes::{damage, sound_table};

use super::{Driver, MOST_RECORDS, Told};
use crate::command::{Command, Conversion};
use crate::sinks::Sink;

/// Numbers of records at which a byte of bits is full or the next begins.
const AROUND_A_BYTE: [usize; 6] = [7, 8, 9, 15, 16, 17];
/// And those at which the old form of a table is as long as today's form of one record less, and their
/// neighbours.
const EQUALLY_LONG: [usize; 5] = [633, 634, 640, 641, 642];

impl<S: Sink> Driver<S> {
    pub(super) fn status(&mut self) -> Told<()> {
        self.give(&Command::Status)?;
        Ok(())
    }

    /// A table of the old form, as the desk's own would be as a rule, and a second buffer with anything
    /// in it; half of them are damaged.
    pub(super) fn convert(&mut self) -> Told<()> {
        let table = self.table_to_convert();
        let mut old = old_form(&table);
        let into = self.second_buffer(room(table.len()));
        match self.chance.below(16) {
            0 => old = table,
            1..=8 => damage::old_table(&mut self.chance, &mut old),
            _ => {}
        }
        self.give(&Command::Convert(Conversion { old, into }))?;
        Ok(())
    }

    /// The desk's table, which is sound, or now and then one made by hand.
    fn table_to_convert(&mut self) -> Vec<u8> {
        let records = match self.chance.below(1_200) {
            0 => self.chance.pick(&EQUALLY_LONG),
            1 => MOST_RECORDS,
            2..=100 => self.chance.pick(&AROUND_A_BYTE),
            _ => return self.desk.table.clone(),
        };
        sound_table(&mut self.chance, records)
    }

    /// A second buffer: for so many records as a rule, and otherwise of another length, which is
    /// mostly near.
    fn second_buffer(&mut self, records: usize) -> Vec<u8> {
        let len = table_len(records);
        let any = self.chance.place(2 * len);
        let others = [
            0,
            any,
            len - 1,
            len + 1,
            old_len(records),
            table_len(records.saturating_sub(1)),
            table_len(records + 1),
        ];
        let other = self.chance.pick(&others);
        let len = if self.chance.one_in(3) { other } else { len };
        self.junk(len)
    }
}
