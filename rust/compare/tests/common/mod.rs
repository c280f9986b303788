//! What the tests of broken hosts share: a host that is the second one but for what a test breaks.

use compare::{Beside, Desk, Difference, Driver, Host, Second, Status, Told};
use pilaqsevi::Marks;

/// The entries within which each fault must show.
const ENTRIES: u64 = 20_000;
const SEED: u64 = 3;

/// The calls that a test may break; the others are the second host's.
pub trait Broken {
    fn fresh(&self, table: &mut [u8], threshold: u32, firms: &[[u8; 4]]) -> u8 {
        Second.fresh(table, threshold, firms)
    }

    fn step(&self, desk: &mut Desk, entry: &[u8]) -> Told {
        desk.step(&Second, entry)
    }

    fn entry(&self, purge: bool, stamp: u64, message: &[u8], out: &mut [u8]) -> Told {
        Second.entry(purge, stamp, message, out)
    }

    fn convert(&self, old: &[u8], table: &mut [u8]) -> u8 {
        Second.convert(old, table)
    }

    fn status(&self, table: &[u8]) -> Status {
        Second.status(table)
    }
}

/// The host that is broken so. A step is given the desk.
struct Shown<B>(B);

impl<B: Broken> Host for Shown<B> {
    fn fresh(&self, table: &mut [u8], threshold: u32, firms: &[[u8; 4]]) -> u8 {
        self.0.fresh(table, threshold, firms)
    }

    fn step(
        &self,
        table: &mut [u8],
        ring: &mut [u8],
        marks: &mut Marks,
        stocks: &mut [u8],
        entry: &[u8],
    ) -> Told {
        let mut desk = Desk {
            table: table.to_vec(),
            ring: ring.to_vec(),
            stocks: stocks.to_vec(),
            marks: *marks,
        };
        let told = self.0.step(&mut desk, entry);
        table.copy_from_slice(&desk.table);
        ring.copy_from_slice(&desk.ring);
        stocks.copy_from_slice(&desk.stocks);
        *marks = desk.marks;
        told
    }

    fn read<'a>(&self, ring: &'a [u8], marks: Marks) -> &'a [u8] {
        Second.read(ring, marks)
    }

    fn release(&self, ring_len: usize, marks: &mut Marks, k: usize) -> u8 {
        Second.release(ring_len, marks, k)
    }

    fn echo(&self, inbound: bool, message: &[u8], out: &mut [u8]) -> Told {
        Second.echo(inbound, message, out)
    }

    fn entry(&self, purge: bool, stamp: u64, message: &[u8], out: &mut [u8]) -> Told {
        self.0.entry(purge, stamp, message, out)
    }

    fn convert(&self, old: &[u8], table: &mut [u8]) -> u8 {
        self.0.convert(old, table)
    }

    fn status(&self, table: &[u8]) -> Status {
        self.0.status(table)
    }
}

/// The second host but for its step.
struct Stepping<F>(F);

impl<F: Fn(&mut Desk, &[u8]) -> Told> Broken for Stepping<F> {
    fn step(&self, desk: &mut Desk, entry: &[u8]) -> Told {
        self.0(desk, entry)
    }
}

/// The difference that a host shows which is broken so, if any.
pub fn difference(broken: impl Broken) -> Option<Box<Difference>> {
    Driver::drive(SEED, ENTRIES, Beside::new(Shown(broken))).err()
}

/// The difference that a host with this step shows, if any.
#[allow(dead_code, reason = "not every test breaks a step alone")]
pub fn difference_in_steps(step: impl Fn(&mut Desk, &[u8]) -> Told) -> Option<Box<Difference>> {
    difference(Stepping(step))
}
