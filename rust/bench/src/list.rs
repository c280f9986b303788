//! A list of stocks judged as a Rust programmer would by hand: what the proved function is held to.

use pilaqsevi::{MOST_STOCKS, STOCK_SIZE, SYMBOL_SIZE};

/// Whether the list is good: one pass that ends at the first fault, and big-endian numbers, which
/// stand as their bytes do. It isn't inlined, since the proved one is a call into an archive.
#[inline(never)]
pub fn judge(list: &[u8]) -> bool {
    let (places, []) = list.as_chunks::<STOCK_SIZE>() else {
        return false;
    };
    let mut last = None;
    places.len() <= MOST_STOCKS
        && places.iter().all(|place| {
            let symbol = place.first_chunk().copied().map(u64::from_be_bytes);
            let above = last < symbol;
            last = symbol;
            above && matches!(place[SYMBOL_SIZE], b'T' | b'H')
        })
}

#[cfg(test)]
mod tests {
    use second::Stocks;
    use second::tapes::{Chance, damage, good_list, sound_table};

    use super::judge;

    #[test]
    fn judges_as_the_second_host_does() {
        let mut chance = Chance::new(1);
        let (mut good, mut wrong) = (0, 0);
        for _ in 0..6_000 {
            let table = sound_table(&mut chance, 3);
            let mut list = good_list(&mut chance, &table);
            assert!(judge(&list));
            damage::stocks(&mut chance, &mut list);
            let judged = judge(&list);
            assert_eq!(judged, Stocks::over(&mut list).is_some());
            *(if judged { &mut good } else { &mut wrong }) += 1;
        }
        assert!(good > 500 && wrong > 500, "{good} {wrong}");
    }
}
