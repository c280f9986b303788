//! The sixteen messages, with document 004's offsets.

use crate::field::{Side, Stamp, Sweep, Token};
use crate::layout::messages;
use crate::shares::{Open, Removed, Total};

messages! {
    /// Enter Order, inbound.
    b'O' Enter 48 {
        1 token: Token,
        15 side: Side,
        16 shares: Total,
        20 stock: [u8; 8],
        28 price: u32,
        32 time_in_force: u32,
        36 firm: [u8; 4],
        40 display: u8,
        41 capacity: u8,
        42 sweep: Sweep,
        43 minimum: u32,
        47 cross: u8,
    }

    /// Replace Order, inbound.
    b'U' Replace 47 {
        1 existing: Token,
        15 replacement: Token,
        29 shares: Total,
        33 price: u32,
        37 time_in_force: u32,
        41 display: u8,
        42 sweep: Sweep,
        43 minimum: u32,
    }

    /// Cancel Order, inbound; the shares are the intended size.
    b'X' Cancel 19 {
        1 token: Token,
        15 intended_size: Total,
    }

    /// Modify Order, inbound.
    b'M' Modify 20 {
        1 token: Token,
        15 side: Side,
        16 shares: Total,
    }

    /// System Event.
    b'S' SystemEvent 10 {
        1 stamp: Stamp,
        9 code: u8,
    }

    /// Accepted.
    b'A' Accepted 66 {
        1 stamp: Stamp,
        9 token: Token,
        23 side: u8,
        24 shares: Total,
        28 stock: [u8; 8],
        36 price: u32,
        40 time_in_force: u32,
        44 firm: [u8; 4],
        48 display: u8,
        49 reference: u64,
        57 capacity: u8,
        58 sweep: u8,
        59 minimum: u32,
        63 cross: u8,
        64 state: u8,
        65 weight: u8,
    }

    /// Replaced; its shares are what is open, not the chain's total.
    b'U' Replaced 80 {
        1 stamp: Stamp,
        9 token: Token,
        23 side: u8,
        24 shares: Open,
        28 stock: [u8; 8],
        36 price: u32,
        40 time_in_force: u32,
        44 firm: [u8; 4],
        48 display: u8,
        49 reference: u64,
        57 capacity: u8,
        58 sweep: u8,
        59 minimum: u32,
        63 cross: u8,
        64 state: u8,
        65 previous: Token,
        79 weight: u8,
    }

    /// Canceled.
    b'C' Canceled 28 {
        1 stamp: Stamp,
        9 token: Token,
        23 decrement: Removed,
        27 reason: u8,
    }

    /// AIQ Cancelled: a self match was prevented.
    b'D' AiqCancelled 37 {
        1 stamp: Stamp,
        9 token: Token,
        23 decrement: Removed,
        27 reason: u8,
        28 prevented: u32,
        32 price: u32,
        36 flag: u8,
    }

    /// Executed.
    b'E' Executed 40 {
        1 stamp: Stamp,
        9 token: Token,
        23 shares: Removed,
        27 price: u32,
        31 flag: u8,
        32 match_number: u64,
    }

    /// Broken Trade; the host never sends it.
    b'B' BrokenTrade 32 {
        1 stamp: Stamp,
        9 token: Token,
        23 match_number: u64,
        31 reason: u8,
    }

    /// Rejected.
    b'J' Rejected 24 {
        1 stamp: Stamp,
        9 token: Token,
        23 reason: u8,
    }

    /// Cancel Pending.
    b'P' CancelPending 23 {
        1 stamp: Stamp,
        9 token: Token,
    }

    /// Cancel Reject.
    b'I' CancelReject 23 {
        1 stamp: Stamp,
        9 token: Token,
    }

    /// Priority Update.
    b'T' PriorityUpdate 36 {
        1 stamp: Stamp,
        9 token: Token,
        23 price: u32,
        27 display: u8,
        28 reference: u64,
    }

    /// Modified; its shares are what is open.
    b'M' Modified 28 {
        1 stamp: Stamp,
        9 token: Token,
        23 side: u8,
        24 shares: Open,
    }
}
