//! A difference between two hosts, told so that a person can find its reason.

use std::error::Error;
use std::fmt::{self, Display, Formatter};

use second::tapes::counts::{old_len, room};

use crate::command::{Command, shown};
use crate::desk::Desk;
use crate::records::{HEADER_LEN, RECORD_LEN};

/// A command that left something else than expected.
#[derive(Debug)]
pub struct Difference {
    /// Which command of the script it is, from 1.
    pub number: u64,
    pub command: Command,
    /// The right desk before the command.
    pub before: Desk,
    pub expected: Vec<u8>,
    pub left: Vec<u8>,
}

impl Error for Difference {}

impl Display for Difference {
    fn fmt(&self, f: &mut Formatter) -> fmt::Result {
        let equal = self.expected.iter().zip(&self.left);
        let place = equal.take_while(|(right, wrong)| right == wrong).count();
        let Desk {
            table,
            ring,
            stocks,
            marks,
        } = &self.before;
        writeln!(
            f,
            "the hosts differ at command {} of the script",
            self.number
        )?;
        writeln!(f, "  first in {}", self.part(place))?;
        writeln!(f, "  expected {}", told(&self.expected, place))?;
        writeln!(f, "  left     {}", told(&self.left, place))?;
        writeln!(f, "  command  {}", self.command)?;
        writeln!(f, "  table    {}", shown(table))?;
        writeln!(f, "  ring     {}", shown(ring))?;
        writeln!(f, "  stocks   {}", shown(stocks))?;
        write!(f, "  marks    at {}, held {}", marks.at, marks.held)
    }
}

impl Difference {
    /// What stands at this place of what the command leaves.
    fn part(&self, place: usize) -> String {
        let (table, ring) = (self.before.table.len(), self.before.ring.len());
        match (&self.command, place) {
            (Command::Read, 0..4) => "the run's length".into(),
            (Command::Read, _) => format!("the run, byte {}", place - 4),
            (_, 0) => "the answer".into(),
            (Command::Fresh(_), _) => in_table(table, place - 1),
            (Command::Convert(conversion), _) => {
                let made = in_table(conversion.into.len(), place - 1);
                format!("{made}, in the second buffer")
            }
            (Command::Status, 1..9) => "the number of live orders".into(),
            (Command::Status, _) => "the sum of open shares".into(),
            (Command::Release(_), 1..9) | (Command::Step(_), 9..17) => "the read place".into(),
            (Command::Release(_), _) | (Command::Step(_), 17..25) => "the held count".into(),
            (_, 1..9) => "the place of the bad byte".into(),
            (Command::Echo(_), _) => format!("the written message, byte {}", place - 9),
            (Command::Make(_), _) => format!("the made entry, byte {}", place - 9),
            (_, _) if place - 25 < table => in_table(table, place - 25),
            (_, _) if place - 25 - table < ring => format!("the ring, byte {}", place - 25 - table),
            (_, _) => in_stocks(place - 25 - table - ring),
        }
    }
}

/// A place of a table of so many bytes, as the paper counts it.
fn in_table(len: usize, place: usize) -> String {
    let bits_at = old_len(room(len));
    if let Some(byte) = place.checked_sub(bits_at) {
        return format!("the bits behind the records, byte {byte}");
    }
    match place.checked_sub(HEADER_LEN) {
        None => format!("the table's header, byte {place}"),
        Some(records) => format!(
            "record {} of the table, byte {}",
            records / RECORD_LEN,
            records % RECORD_LEN
        ),
    }
}

/// A place of the list of stocks as the paper counts it.
fn in_stocks(place: usize) -> String {
    format!(
        "the list of stocks, place {}, byte {}",
        place / 9,
        place % 9
    )
}

/// The first byte, which is mostly the answer, and the byte at the place.
fn told(left: &[u8], place: usize) -> String {
    match (left.first(), left.get(place)) {
        (Some(first), Some(byte)) => format!("{byte} (answer or first byte {first})"),
        (Some(first), None) => format!("nothing more (answer or first byte {first})"),
        (None, _) => "nothing".into(),
    }
}
