//! The second host: an order host for OUCH 4.2 written from the rule paper (document 01) and the
//! requests that change it (document 02) alone, so that the proved host can be compared with it byte
//! for byte.
//!
//! Nothing here is shared with the proved host, neither code nor constants. The host keeps its own
//! structures and turns them into the paper's bytes only at its doors:
//!
//! - [`fresh`], [`step`], [`read`], [`release`]: the paper's calls over bytes, total on all inputs;
//! - [`convert`]: a table of the old form, rebuilt in another buffer;
//! - [`status`]: how many orders a table says are live, and how many shares they have open;
//! - [`echo`]: reads one of the sixteen messages and writes it back;
//! - [`entry()`]: makes an entry of a client's message or of the purge port's;
//! - [`Told`]: what a step and either of these say, the number and with 3 the first bad byte's place;
//! - [`Host`] with [`Outbox`] and [`Stocks`]: the same host kept between steps;
//! - [`listing`]: what the paper's program prints for a tape;
//! - [`tapes`]: seeded random tapes, tables and damage for comparing hosts.

#![forbid(unsafe_code)]

mod answer;
mod bits;
mod blocks;
mod door;
mod echo;
mod entry;
mod field;
mod host;
mod layout;
mod listing;
pub mod messages;
mod order;
mod outbox;
pub mod port;
mod rules;
mod shares;
mod stocks;
mod table;
pub mod tapes;
mod taping;

#[cfg(test)]
mod tests;

pub use answer::{Answer, Status, Told};
pub use door::{convert, fresh, read, release, status, step};
pub use echo::echo;
pub use field::{Account, AppendageLength, Side, Stamp, StockState, Sweep, Token};
pub use host::Host;
pub use layout::{Fields, Message};
pub use listing::listing;
pub use outbox::Outbox;
pub use shares::{Open, Removed, Total};
pub use stocks::{Stocks, Symbol};
pub use table::Firm;
pub use taping::entry;
