//! A host as the comparison sees it: eight calls over bytes, and the two hosts that have them.

use pilaqsevi::{Answer, Marks};
pub use second::{Status, Told};

/// The paper's calls; an answer is the paper's number, and a step, an echo and the making of an entry
/// tell a place with it.
pub trait Host {
    fn fresh(&self, table: &mut [u8], threshold: u32, firms: &[[u8; 4]]) -> u8;
    fn step(
        &self,
        table: &mut [u8],
        ring: &mut [u8],
        marks: &mut Marks,
        stocks: &mut [u8],
        entry: &[u8],
    ) -> Told;
    fn read<'a>(&self, ring: &'a [u8], marks: Marks) -> &'a [u8];
    fn release(&self, ring_len: usize, marks: &mut Marks, k: usize) -> u8;
    fn echo(&self, inbound: bool, message: &[u8], out: &mut [u8]) -> Told;
    fn entry(&self, purge: bool, stamp: u64, message: &[u8], out: &mut [u8]) -> Told;
    fn convert(&self, old: &[u8], table: &mut [u8]) -> u8;
    fn status(&self, table: &[u8]) -> Status;
}

/// The second host, which says what is right.
pub struct Second;

impl Host for Second {
    fn fresh(&self, table: &mut [u8], threshold: u32, firms: &[[u8; 4]]) -> u8 {
        second::fresh(table, threshold, firms)
    }

    fn step(
        &self,
        table: &mut [u8],
        ring: &mut [u8],
        marks: &mut Marks,
        stocks: &mut [u8],
        entry: &[u8],
    ) -> Told {
        second::step(table, ring, &mut marks.at, &mut marks.held, stocks, entry)
    }

    fn read<'a>(&self, ring: &'a [u8], marks: Marks) -> &'a [u8] {
        second::read(ring, marks.at, marks.held)
    }

    fn release(&self, ring_len: usize, marks: &mut Marks, k: usize) -> u8 {
        second::release(ring_len, &mut marks.at, &mut marks.held, k)
    }

    fn echo(&self, inbound: bool, message: &[u8], out: &mut [u8]) -> Told {
        second::echo(inbound, message, out)
    }

    fn entry(&self, purge: bool, stamp: u64, message: &[u8], out: &mut [u8]) -> Told {
        second::entry(purge, stamp, message, out)
    }

    fn convert(&self, old: &[u8], table: &mut [u8]) -> u8 {
        second::convert(old, table)
    }

    fn status(&self, table: &[u8]) -> Status {
        second::status(table)
    }
}

/// The proved host, through its door.
pub struct Proved(());

impl Proved {
    /// The proved host, or why it isn't linked.
    pub fn linked() -> Result<Proved, &'static str> {
        pilaqsevi::absent().map_or(Ok(Proved(())), Err)
    }
}

impl Host for Proved {
    fn fresh(&self, table: &mut [u8], threshold: u32, firms: &[[u8; 4]]) -> u8 {
        pilaqsevi::fresh(table, threshold, firms).number()
    }

    fn step(
        &self,
        table: &mut [u8],
        ring: &mut [u8],
        marks: &mut Marks,
        stocks: &mut [u8],
        entry: &[u8],
    ) -> Told {
        told(pilaqsevi::step(table, ring, marks, stocks, entry))
    }

    fn read<'a>(&self, ring: &'a [u8], marks: Marks) -> &'a [u8] {
        pilaqsevi::read(ring, marks)
    }

    fn release(&self, ring_len: usize, marks: &mut Marks, k: usize) -> u8 {
        pilaqsevi::release(ring_len, marks, k).number()
    }

    fn echo(&self, inbound: bool, message: &[u8], out: &mut [u8]) -> Told {
        told(pilaqsevi::echo(inbound, message, out))
    }

    fn entry(&self, purge: bool, stamp: u64, message: &[u8], out: &mut [u8]) -> Told {
        told(pilaqsevi::entry(purge, stamp, message, out))
    }

    fn convert(&self, old: &[u8], table: &mut [u8]) -> u8 {
        pilaqsevi::convert(old, table).number()
    }

    fn status(&self, table: &[u8]) -> Status {
        match pilaqsevi::status(table) {
            Ok(pilaqsevi::Status { live, open }) => Status {
                answer: Answer::Done.number(),
                live,
                open,
            },
            // Where it is refused, the door has seen to it that both numbers were 0.
            Err(answer) => Status {
                answer: answer.number(),
                live: 0,
                open: 0,
            },
        }
    }
}

/// An answer of the door as numbers. A place that came with another answer than 3 isn't lost: the
/// door ends the program with it.
fn told(answer: Answer) -> Told {
    Told {
        answer: answer.number(),
        place: answer.place(),
    }
}
