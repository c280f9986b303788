//! A desk: a table, a ring and its marks and a list of stocks, at which a host obeys commands.

use pilaqsevi::Marks;

use crate::command::{Command, Conversion, Making, Settings};
use crate::host::{Host, Status, Told};

/// What stands between commands; at the start there is nothing. The door's own desk is always
/// right, and this one may be damaged.
#[derive(Clone, Debug, Default, PartialEq, Eq)]
pub struct Desk {
    pub table: Vec<u8>,
    pub ring: Vec<u8>,
    pub stocks: Vec<u8>,
    pub marks: Marks,
}

impl Desk {
    /// Has the host obey a command, and appends all that the command left: the answer, the place
    /// where one is told, and every byte and mark that it could have changed.
    pub fn obey(&mut self, host: &impl Host, command: &Command, left: &mut Vec<u8>) {
        match command {
            Command::Table(table) => self.table.clone_from(table),
            Command::Ring { ring, marks } => {
                self.ring.clone_from(ring);
                self.marks = *marks;
            }
            Command::Stocks(stocks) => self.stocks.clone_from(stocks),
            Command::Fresh(settings) => {
                let firms = listed(settings);
                left.push(host.fresh(&mut self.table, settings.threshold, &firms));
                left.extend(&self.table);
            }
            Command::Step(entry) => {
                tell(self.step(host, entry), left);
                self.tell_marks(left);
                left.extend(&self.table);
                left.extend(&self.ring);
                left.extend(&self.stocks);
            }
            Command::Release(k) => {
                left.push(host.release(self.ring.len(), &mut self.marks, *k));
                self.tell_marks(left);
            }
            Command::Read => {
                let run = host.read(&self.ring, self.marks);
                left.extend((run.len() as u32).to_be_bytes());
                left.extend(run);
            }
            Command::Echo(echo) => {
                let mut out = vec![echo.fill; echo.out_len];
                tell(host.echo(echo.inbound, &echo.message, &mut out), left);
                left.extend(out);
            }
            Command::Make(making) => made(host, making, left),
            Command::Status => tell_status(host.status(&self.table), left),
            Command::Convert(conversion) => converted(host, conversion, left),
        }
    }

    /// Offers an entry to the host here, and gives what it tells.
    pub fn step(&mut self, host: &impl Host, entry: &[u8]) -> Told {
        let Desk {
            table,
            ring,
            stocks,
            marks,
        } = self;
        host.step(table, ring, marks, stocks, entry)
    }

    /// What was put behind so many held bytes.
    pub fn sent_since(&self, held: usize) -> Vec<u8> {
        let at = |place: usize| (self.marks.at + place) % self.ring.len();
        let places = held..self.marks.held;
        places.map(|place| self.ring[at(place)]).collect()
    }

    fn tell_marks(&self, left: &mut Vec<u8>) {
        left.extend((self.marks.at as u64).to_be_bytes());
        left.extend((self.marks.held as u64).to_be_bytes());
    }
}

/// Has the host make an entry, and appends what that left.
fn made(host: &impl Host, making: &Making, left: &mut Vec<u8>) {
    let Making {
        purge,
        stamp,
        message,
        ..
    } = making;
    let mut out = vec![making.fill; making.out_len];
    tell(host.entry(*purge, *stamp, message, &mut out), left);
    left.extend(out);
}

/// Has the host convert a table, and appends what that left in the second buffer.
fn converted(host: &impl Host, conversion: &Conversion, left: &mut Vec<u8>) {
    let Conversion { old, into } = conversion;
    let mut into = into.clone();
    left.push(host.convert(old, &mut into));
    left.extend(into);
}

/// The answer and both numbers, each in eight bytes.
fn tell_status(status: Status, left: &mut Vec<u8>) {
    left.push(status.answer);
    for number in [status.live, status.open] {
        left.extend((number as u64).to_be_bytes());
    }
}

/// The answer, and the place in eight bytes.
fn tell(told: Told, left: &mut Vec<u8>) {
    left.push(told.answer);
    left.extend((told.place as u64).to_be_bytes());
}

/// The firms of a fresh command as a list. A count above the places gives a list that is too long,
/// whatever stands in it; places past the count aren't looked at.
fn listed(settings: &Settings) -> Vec<[u8; 4]> {
    let places = settings.firms.iter().cycle().copied();
    places.take(usize::from(settings.count)).collect()
}
