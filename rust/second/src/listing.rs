//! The listing: what the paper's program prints for a tape.

use crate::door::fresh;
use crate::entry::entry_length;
use crate::host::Host;
use crate::outbox::Outbox;
use crate::stocks::Stocks;

/// The program's table, outbox, settings and list of stocks.
const TABLE_LEN: usize = 64 + 80 * 800 + 100;
const RING_LEN: usize = 4_096;
const THRESHOLD: u32 = 1_000_000;
const FIRM: [u8; 4] = *b"ABCD";
const STOCKS: [u8; 9] = *b"ABC     T";

/// The lines for a tape, or nothing where the program's own settings were wrong.
pub fn listing(tape: &[u8]) -> Option<String> {
    let mut table = vec![0; TABLE_LEN];
    fresh(&mut table, THRESHOLD, &[FIRM]);
    let mut host = Host::load(&table)?;
    let mut outbox = Outbox::empty(RING_LEN)?;
    let mut list = STOCKS;
    let mut stocks = Stocks::over(&mut list)?;
    let mut lines = String::from("entry kind answer sent\n");
    let (mut rest, mut number, mut taken, mut bytes) = (tape, 0_u64, 0_u64, 0_usize);
    while let Some(&kind) = rest.first() {
        number += 1;
        let whole = entry_length(kind).filter(|&len| len <= rest.len());
        let (entry, after) = rest.split_at(whole.unwrap_or(0));
        // Nothing of an unknown or cut entry is offered, and nothing offered is answered with 2.
        let answer = host.offer(&mut outbox, &mut stocks, entry).answer;
        let sent = outbox
            .run()
            .first()
            .map_or('-', |&letter| char::from(letter));
        lines += &format!("{number} {kind:02x} {answer} {sent}\n");
        taken += u64::from(answer == 0);
        bytes += outbox.held();
        outbox.release(outbox.held());
        if whole.is_none() {
            break;
        }
        rest = after;
    }
    lines += &format!("taken {taken} bytes {bytes}\n");
    Some(lines)
}
