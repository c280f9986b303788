//! The comparison of two hosts: one seeded script of calls, obeyed by both, byte for byte.
//!
//! A [`Driver`] makes the script as it goes, looking at what the second host left after each call,
//! and hands every call and its right outcome to a [`Sink`]: to the proved host through its door,
//! or to a broken one, which must be found out.

#![forbid(unsafe_code)]

mod alike;
mod bits;
mod blocks;
mod cancels;
mod command;
mod conversions;
mod counts;
mod desk;
mod difference;
mod driver;
mod host;
mod meant;
mod purges;
pub mod records;
mod sinks;
mod statuses;
mod tally;

pub use command::{Command, Conversion, Echo, Making, Settings};
pub use desk::Desk;
pub use difference::Difference;
pub use driver::Driver;
pub use host::{Host, Proved, Second, Status, Told};
pub use sinks::{Beside, Sink};
pub use tally::Tally;
