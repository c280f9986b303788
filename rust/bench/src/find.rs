//! A symbol looked for in a list of stocks as a Rust programmer would by hand, and the symbols.

use pilaqsevi::{STOCK_SIZE, SYMBOL_SIZE};
use second::tapes::Chance;

/// What a symbol's standing is told as.
const UNLISTED: u8 = 0;
const TRADING: u8 = 1;
const HALTED: u8 = 2;
/// How many symbols are looked for before they come again: too many for a processor to learn.
const WANTED: usize = 4_096;

/// How a symbol stands in a good list. It isn't inlined, since the proved one is a call into an
/// archive.
#[inline(never)]
pub fn standing(list: &[u8], symbol: &[u8; SYMBOL_SIZE]) -> u8 {
    let (places, _) = list.as_chunks::<STOCK_SIZE>();
    let found = places.binary_search_by(|place| place[..SYMBOL_SIZE].cmp(symbol));
    found.map_or(UNLISTED, |at| match places[at][SYMBOL_SIZE] {
        b'T' => TRADING,
        _ => HALTED,
    })
}

/// Symbols to look for in a list, in no order; three in four of them are listed, and the others
/// miss one by their last byte.
pub fn wanted(list: &[u8]) -> Vec<[u8; SYMBOL_SIZE]> {
    let (places, _) = list.as_chunks::<STOCK_SIZE>();
    let mut chance = Chance::new(1);
    let symbol = |_| {
        let mut symbol = [0; SYMBOL_SIZE];
        symbol.copy_from_slice(&places[chance.place(places.len())][..SYMBOL_SIZE]);
        if chance.one_in(4) {
            symbol[SYMBOL_SIZE - 1] = chance.pick(b"JL");
        }
        symbol
    };
    (0..WANTED).map(symbol).collect()
}

#[cfg(test)]
mod tests {
    use second::Stocks;
    use second::tapes::{Chance, good_list, sound_table};

    use super::{standing, wanted};
    use crate::scene::long_list;

    #[test]
    fn three_in_four_symbols_are_found_in_the_longest_list() {
        let list = long_list();
        let mut told = [0; 3];
        for symbol in wanted(&list) {
            told[usize::from(standing(&list, &symbol))] += 1;
        }
        let [unlisted, trading, halted] = told;
        assert!((900..1_150).contains(&unlisted), "{told:?}");
        assert!(trading > 2_000 && halted > 300, "{told:?}");
    }

    #[test]
    fn finds_what_the_second_host_finds() {
        let mut chance = Chance::new(2);
        let mut told = [0; 3];
        for _ in 0..6_000 {
            let table = sound_table(&mut chance, 3);
            let mut list = good_list(&mut chance, &table);
            let place = 9 * chance.place(list.len() / 9);
            let mut symbol = [b' '; 8];
            if let Some(place) = list.get(place..place + 8) {
                symbol.copy_from_slice(place);
            }
            if chance.one_in(4) {
                symbol[chance.place(8)] = chance.byte();
            }
            let standing = standing(&list, &symbol);
            let stocks = Stocks::over(&mut list).unwrap();
            assert_eq!(standing > 0, stocks.find(symbol).is_some());
            assert_eq!(standing == 2, stocks.halted(symbol));
            told[usize::from(standing)] += 1;
        }
        assert!(told.iter().all(|&times| times > 500), "{told:?}");
    }
}
