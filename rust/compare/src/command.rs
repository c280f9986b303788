//! The commands that a script is a row of: what is set at a desk, and what is called there.

use std::fmt::{self, Display, Formatter};

use pilaqsevi::Marks;

/// The firm places of a fresh command.
const FIRM_PLACES: usize = 8;
/// Tables, rings and lists up to this length are shown whole.
const SHOWN: usize = 1_024;

/// One command.
#[derive(Clone, Debug, PartialEq, Eq)]
pub enum Command {
    /// Sets the table.
    Table(Vec<u8>),
    /// Sets the ring and its marks.
    Ring { ring: Vec<u8>, marks: Marks },
    /// Sets the list of stocks.
    Stocks(Vec<u8>),
    /// Fresh over the present table.
    Fresh(Settings),
    /// Offers an entry.
    Step(Vec<u8>),
    /// Releases so many bytes.
    Release(usize),
    /// Reads the run.
    Read,
    /// Reads a message and writes it back.
    Echo(Echo),
    /// Makes an entry of a message.
    Make(Making),
    /// Asks for the live orders and their open shares.
    Status,
    /// Rebuilds a table of the old form.
    Convert(Conversion),
}

/// What a fresh call is given. The count may be above the places, which is a bad setting.
#[derive(Clone, Copy, Debug, PartialEq, Eq)]
pub struct Settings {
    pub threshold: u32,
    pub count: u8,
    pub firms: [[u8; 4]; FIRM_PLACES],
}

/// A message, and a buffer of so many bytes, all `fill`.
#[derive(Clone, Debug, PartialEq, Eq)]
pub struct Echo {
    pub inbound: bool,
    pub message: Vec<u8>,
    pub out_len: usize,
    pub fill: u8,
}

/// A message, the purge port's or a client's, and the stamp of its entry, for which there is a buffer
/// of so many bytes, all `fill`.
#[derive(Clone, Debug, PartialEq, Eq)]
pub struct Making {
    pub purge: bool,
    pub stamp: u64,
    pub message: Vec<u8>,
    pub out_len: usize,
    pub fill: u8,
}

/// A table of the old form, and the bytes of the second buffer.
#[derive(Clone, Debug, PartialEq, Eq)]
pub struct Conversion {
    pub old: Vec<u8>,
    pub into: Vec<u8>,
}

/// A command in one line: its name, and what it was given. Tables, rings and lists are told with
/// the desk.
impl Display for Command {
    fn fmt(&self, f: &mut Formatter) -> fmt::Result {
        match self {
            Command::Table(table) => write!(f, "table of {} bytes", table.len()),
            Command::Ring { ring, .. } => write!(f, "ring of {} bytes", ring.len()),
            Command::Stocks(stocks) => write!(f, "list of stocks of {} bytes", stocks.len()),
            Command::Fresh(settings) => {
                let firms = hex(settings.firms.as_flattened());
                let Settings {
                    threshold, count, ..
                } = settings;
                write!(f, "fresh, threshold {threshold}, {count} firms {firms}")
            }
            Command::Step(entry) => write!(f, "step {}", hex(entry)),
            Command::Release(k) => write!(f, "release {k}"),
            Command::Read => write!(f, "read"),
            Command::Echo(echo) => write!(f, "{echo}"),
            Command::Make(making) => write!(f, "{making}"),
            Command::Status => write!(f, "status"),
            Command::Convert(conversion) => write!(f, "{conversion}"),
        }
    }
}

impl Display for Echo {
    fn fmt(&self, f: &mut Formatter) -> fmt::Result {
        let way = if self.inbound { "inbound" } else { "outbound" };
        let Echo { out_len, fill, .. } = self;
        let message = hex(&self.message);
        write!(f, "echo {way} {message} into {out_len} bytes of {fill:02x}")
    }
}

impl Display for Making {
    fn fmt(&self, f: &mut Formatter) -> fmt::Result {
        let whose = if self.purge {
            "the port's"
        } else {
            "a client's"
        };
        let (stamp, message) = (self.stamp, hex(&self.message));
        write!(f, "entry of {whose} {message} at {stamp} ")?;
        let Making { out_len, fill, .. } = self;
        write!(f, "into {out_len} bytes of {fill:02x}")
    }
}

impl Display for Conversion {
    fn fmt(&self, f: &mut Formatter) -> fmt::Result {
        let (old, len) = (shown(&self.old), self.into.len());
        write!(f, "convert {old} into {len} bytes")
    }
}

/// Bytes in digits, where they aren't too many to be read.
pub fn shown(bytes: &[u8]) -> String {
    if bytes.len() > SHOWN {
        return format!("{} bytes", bytes.len());
    }
    hex(bytes)
}

/// Bytes as two digits each.
pub fn hex(bytes: &[u8]) -> String {
    bytes.iter().map(|byte| format!("{byte:02x}")).collect()
}
