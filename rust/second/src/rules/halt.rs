//! h: a listed stock is halted, or trades again.

use super::Deed;
use crate::answer::Answer;
use crate::entry::Halt;
use crate::stocks::Stocks;

/// Whatever the day, and whether or not the state is there already.
pub fn halt(stocks: &Stocks, h: &Halt) -> Result<Deed, Answer> {
    let place = stocks.find(h.symbol).ok_or(Answer::NotListed)?;
    Ok(Deed {
        sets: Some((place, h.state)),
        ..Deed::default()
    })
}
