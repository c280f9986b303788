//! The purge port's requests that the host serves, with document 000's offsets.

use crate::field::{Account, AppendageLength};
use crate::layout::messages;
use crate::stocks::Symbol;
use crate::table::Firm;

messages! {
    /// Mass Cancel Request: a firm's orders, in one symbol or, where that is spaces, in all.
    b'M' MassCancelRequest 25 {
        1 user_reference: u32,
        5 firm: Firm,
        9 account: Account,
        15 symbol: Symbol,
        23 appendage_length: AppendageLength,
    }

    /// Disable Order Entry Request.
    b'D' DisableRequest 15 {
        1 user_reference: u32,
        5 firm: Firm,
        9 account: Account,
    }

    /// Enable Order Entry Request.
    b'E' EnableRequest 15 {
        1 user_reference: u32,
        5 firm: Firm,
        9 account: Account,
    }
}
