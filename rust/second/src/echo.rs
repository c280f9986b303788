//! Echo: reads a message and writes it back, so that readers and writers can be compared.

use crate::answer::{Answer, Told};
use crate::layout::Message;
use crate::messages::*;

/// Reads the message (2, then 3) and writes it into `out` (13). A refusal leaves `out` alone.
///
/// U and M name two messages each; `inbound` says which is meant.
pub fn echo(inbound: bool, message: &[u8], out: &mut [u8]) -> Told {
    let kind = message.first().copied().unwrap_or(0);
    Answer::of(match (inbound, kind) {
        (true, b'O') => back::<Enter>(message, out),
        (true, b'U') => back::<Replace>(message, out),
        (true, b'X') => back::<Cancel>(message, out),
        (true, b'M') => back::<Modify>(message, out),
        (false, b'S') => back::<SystemEvent>(message, out),
        (false, b'A') => back::<Accepted>(message, out),
        (false, b'U') => back::<Replaced>(message, out),
        (false, b'C') => back::<Canceled>(message, out),
        (false, b'D') => back::<AiqCancelled>(message, out),
        (false, b'E') => back::<Executed>(message, out),
        (false, b'B') => back::<BrokenTrade>(message, out),
        (false, b'J') => back::<Rejected>(message, out),
        (false, b'P') => back::<CancelPending>(message, out),
        (false, b'I') => back::<CancelReject>(message, out),
        (false, b'T') => back::<PriorityUpdate>(message, out),
        (false, b'M') => back::<Modified>(message, out),
        _ => Err(Answer::WrongKindOrLength),
    })
    .told()
}

fn back<M: Message>(message: &[u8], out: &mut [u8]) -> Result<(), Answer> {
    M::read(message)?.write(out)
}
