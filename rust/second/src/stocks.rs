//! The list of stocks: which symbols may be traded at all, and which of them are halted just now.

use crate::field::{Field, StockState};

/// A symbol's bytes, and a place's: the symbol and its state.
const SYMBOL_LEN: usize = 8;
const PLACE_LEN: usize = SYMBOL_LEN + 1;
/// The most places of a list; it may also have none.
const MOST_PLACES: usize = 2_000;
/// The state of a stock that nobody may trade.
const HALTED: StockState = StockState(b'H');

/// A symbol, which may be any bytes.
pub type Symbol = [u8; SYMBOL_LEN];

/// One place of the list.
type Place = [u8; PLACE_LEN];

/// A good list over bytes that are lent. They stay the lender's, and only a state is ever written.
#[derive(Debug)]
pub struct Stocks<'a> {
    places: &'a mut [Place],
}

impl<'a> Stocks<'a> {
    /// The list of these bytes, or nothing where it is too long, not of whole places, not strictly
    /// ascending or has another state than T and H.
    pub fn over(list: &'a mut [u8]) -> Option<Stocks<'a>> {
        let (places, rest) = list.as_chunks_mut();
        let ascending = places.is_sorted_by(|one, next| symbol(one) < symbol(next));
        let known = places.iter().all(|place| state(place).good());
        let good = rest.is_empty() && places.len() <= MOST_PLACES && ascending && known;
        good.then_some(Stocks { places })
    }

    /// Where a symbol is listed. Every place is asked, so that this hangs on no order.
    pub fn find(&self, wanted: Symbol) -> Option<usize> {
        self.places.iter().position(|place| symbol(place) == wanted)
    }

    /// Whether a symbol is listed and halted; an unlisted one isn't halted.
    pub fn halted(&self, wanted: Symbol) -> bool {
        self.find(wanted)
            .is_some_and(|place| state(&self.places[place]) == HALTED)
    }

    /// Writes the state of a place, which is one byte.
    pub fn set(&mut self, place: usize, state: StockState) {
        state.put(&mut self.places[place][SYMBOL_LEN..]);
    }
}

fn symbol(place: &Place) -> Symbol {
    Field::get(&place[..SYMBOL_LEN])
}

fn state(place: &Place) -> StockState {
    Field::get(&place[SYMBOL_LEN..])
}
