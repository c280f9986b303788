//! The doors over the paper's bytes: fresh, step, read, release, convert and status, total on all
//! inputs.

use crate::answer::{Answer, Status, Told};
use crate::bits;
use crate::host::Host;
use crate::order::RECORD_LEN;
use crate::outbox::{Marks, Outbox, run};
use crate::shares::Open;
use crate::stocks::Stocks;
use crate::table::{Claims, Form, HEADER_LEN, Header, Settings, claimed_open};

/// Makes the table fresh: refuses a bad length with 10, then bad settings with 3. No place is told of
/// either.
pub fn fresh(table: &mut [u8], threshold: u32, firms: &[[u8; 4]]) -> u8 {
    let form = Form::Counted;
    if form.record_count(table.len()).is_none() {
        return Answer::TableNotSound.number();
    }
    let Some(settings) = Settings::of(threshold, firms) else {
        return Answer::BadSettings.number();
    };
    table.fill(0);
    let none = Claims {
        form,
        used: 0,
        open: Open(0),
    };
    Header::fresh(settings).write(none, &mut table[..HEADER_LEN]);
    Answer::Done.number()
}

/// Offers one entry to the host that the table's bytes describe: a table that isn't sound is 10, a
/// wrong ring 11, a wrong list of stocks 14, and then the entry is judged.
pub fn step(
    table: &mut [u8],
    ring: &mut [u8],
    at: &mut usize,
    held: &mut usize,
    stocks: &mut [u8],
    entry: &[u8],
) -> Told {
    let Some(mut host) = Host::load(table) else {
        return Answer::TableNotSound.told();
    };
    let Some(mut outbox) = Outbox::over(ring, *at, *held) else {
        return Answer::WrongMarks.told();
    };
    let Some(mut stocks) = Stocks::over(stocks) else {
        return Answer::WrongStocks.told();
    };
    let told = host.offer(&mut outbox, &mut stocks, entry);
    if told == Answer::Done.told() {
        *at = outbox.at();
        *held = outbox.held();
        table.copy_from_slice(&host.image());
    }
    told
}

/// The longest unbroken run of held bytes from the read place, a part of the ring itself.
pub fn read(ring: &[u8], at: usize, held: usize) -> &[u8] {
    run(ring, Marks { at, held })
}

/// Gives up k held bytes: 11 for a wrong length or wrong marks, 12 for more than is held.
pub fn release(ring_len: usize, at: &mut usize, held: &mut usize, k: usize) -> u8 {
    let released = Marks {
        at: *at,
        held: *held,
    }
    .released(ring_len, k);
    Answer::of(released.map(|marks| {
        *at = marks.at;
        *held = marks.held;
    }))
    .number()
}

/// Rebuilds a table of the old form in a second buffer: an old one that isn't sound is 10, and then a
/// buffer of any other length than the new table's 13. A refusal leaves the buffer alone.
pub fn convert(old: &[u8], table: &mut [u8]) -> u8 {
    let Some(host) = Host::load_bare(old) else {
        return Answer::TableNotSound.number();
    };
    let image = host.image();
    if table.len() != image.len() {
        return Answer::WrongBufferLength.number();
    }
    table.copy_from_slice(&image);
    Answer::Done.number()
}

/// What a table says of its live orders, whether or not it is true: no record is looked at. Bytes that
/// no table has the length or the form of are 10.
pub fn status(table: &[u8]) -> Status {
    let Some((live, open)) = told_by(table) else {
        return Status {
            answer: Answer::TableNotSound.number(),
            live: 0,
            open: 0,
        };
    };
    Status {
        answer: Answer::Done.number(),
        live,
        open: open.0 as usize,
    }
}

/// The ones among all the bits, spare ones too, and the sum.
fn told_by(table: &[u8]) -> Option<(usize, Open)> {
    let records = Form::Counted.record_count(table.len())?;
    let open = claimed_open(&table[..HEADER_LEN])?;
    let behind = &table[HEADER_LEN + RECORD_LEN * records..];
    Some((bits::ones(behind), open))
}
