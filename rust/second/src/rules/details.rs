//! The details that Enter and Replace are both judged by.

use crate::field::HIGHEST_PRICE;
use crate::shares::{Open, Total};

/// The price of a market order in a cross.
const MARKET_PRICE: u32 = 2_147_483_647;
/// The longest time in force; above it an order lives no longer than this.
const SYSTEM_HOURS: u32 = 99_999;
/// What the weight field of an answer shows.
pub const NO_WEIGHT: u8 = b' ';
/// The cross letter of the continuous market.
pub const NO_CROSS: u8 = b'N';

/// A limit, or the market price in a cross.
pub fn bad_price(price: u32, cross: u8) -> bool {
    let limit = (1..=HIGHEST_PRICE).contains(&price);
    let market = price == MARKET_PRICE && b"OC".contains(&cross);
    !limit && !market
}

/// A known display; imbalance-only needs a cross.
pub fn bad_display(display: u8, cross: u8) -> bool {
    !b"AYNPIMW".contains(&display) || (display == b'I' && cross == NO_CROSS)
}

/// The safety threshold: a total must be above 0 and below it.
pub fn bad_shares(shares: Total, threshold: u32) -> bool {
    shares == Total(0) || shares >= Total(threshold)
}

/// A minimum needs an immediate order, and can't be above what will be open.
pub fn bad_minimum(minimum: u32, time_in_force: u32, open: Open) -> bool {
    (minimum > 0 && time_in_force != 0) || Open(minimum) > open
}

/// The time in force that an answer shows and the record keeps.
pub fn accepted_time_in_force(sent_in: u32) -> u32 {
    sent_in.min(SYSTEM_HOURS)
}
