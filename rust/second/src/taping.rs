//! Taping: a message of a client or of the purge port becomes an entry of the tape.

use crate::answer::{Answer, Told};
use crate::entry::{Disable, Enable, MassCancel};
use crate::field::Stamp;
use crate::layout::Message;
use crate::messages::{Cancel, Enter, Modify, Replace};
use crate::port::{DisableRequest, EnableRequest, MassCancelRequest};

/// Reads the message (2, then 3), as the purge port's or as a client's, and writes its entry to the
/// front of `entry` (13). A refusal leaves `entry` alone, and an entry the bytes behind it.
///
/// The stamp is written as it is given: judging it is the step's, which knows the last one.
pub fn entry(purge: bool, stamp: u64, message: &[u8], entry: &mut [u8]) -> Told {
    let made = if purge {
        from_port(Stamp(stamp), message)
    } else {
        from_client(Stamp(stamp), message)
    };
    Answer::of(made.and_then(|made| put(&made, entry))).told()
}

/// The entry of a request, without what the tape has no use for.
fn from_port(stamp: Stamp, message: &[u8]) -> Result<Vec<u8>, Answer> {
    match message.first() {
        Some(b'M') => {
            let MassCancelRequest { firm, symbol, .. } = Message::read(message)?;
            Ok(bytes(&MassCancel {
                stamp,
                firm,
                symbol,
            }))
        }
        Some(b'D') => {
            let DisableRequest { firm, .. } = Message::read(message)?;
            Ok(bytes(&Disable { stamp, firm }))
        }
        Some(b'E') => {
            let EnableRequest { firm, .. } = Message::read(message)?;
            Ok(bytes(&Enable { stamp, firm }))
        }
        _ => Err(Answer::WrongKindOrLength),
    }
}

/// The entry of a client's message, whose type is the kind.
fn from_client(stamp: Stamp, message: &[u8]) -> Result<Vec<u8>, Answer> {
    match message.first() {
        Some(b'O') => Enter::read(message).map(drop),
        Some(b'U') => Replace::read(message).map(drop),
        Some(b'X') => Cancel::read(message).map(drop),
        Some(b'M') => Modify::read(message).map(drop),
        _ => Err(Answer::WrongKindOrLength),
    }?;
    let (kind, rest) = message.split_at(1);
    Ok([kind, &stamp.0.to_be_bytes(), rest].concat())
}

/// An entry's bytes. Its writer would judge the stamp, so that the fields are put here.
fn bytes<M: Message>(entry: &M) -> Vec<u8> {
    let mut bytes = vec![0; M::LEN];
    bytes[0] = M::KIND;
    entry.put(&mut bytes);
    bytes
}

/// 13: the buffer is shorter than the entry.
fn put(made: &[u8], entry: &mut [u8]) -> Result<(), Answer> {
    let front = entry.get_mut(..made.len()).ok_or(Answer::BufferTooShort)?;
    front.copy_from_slice(made);
    Ok(())
}
