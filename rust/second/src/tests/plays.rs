//! Two plays of one tape, through a roomy ring and through the shortest: from the same table and list
//! of stocks they send the same and leave the same, and only h touches the list.

use crate::tapes::{Chance, Tapes, damage, good_list, sound_table};
use crate::{read, release, step};

/// A play: a table, a ring and a list, what was sent so far, and the answers.
struct Play {
    table: Vec<u8>,
    ring: Vec<u8>,
    at: usize,
    held: usize,
    stocks: Vec<u8>,
    sent: Vec<u8>,
    answers: Vec<u8>,
}

impl Play {
    fn new(table: &[u8], stocks: &[u8], ring_len: usize) -> Play {
        Play {
            table: table.to_vec(),
            ring: vec![0; ring_len],
            at: 0,
            held: 0,
            stocks: stocks.to_vec(),
            sent: Vec::new(),
            answers: Vec::new(),
        }
    }

    /// Offers an entry until it isn't blocked; a reader takes a few bytes each time.
    fn offer(&mut self, entry: &[u8], taken: usize) {
        loop {
            let (table, ring) = (&mut self.table, &mut self.ring);
            let (at, held) = (&mut self.at, &mut self.held);
            let answer = step(table, ring, at, held, &mut self.stocks, entry).answer;
            if answer != 9 {
                return self.answers.push(answer);
            }
            self.take(taken);
        }
    }

    /// Takes at most so many held bytes.
    fn take(&mut self, most: usize) {
        let run = read(&self.ring, self.at, self.held);
        let piece = &run[..run.len().min(most)];
        self.sent.extend(piece);
        let k = piece.len();
        assert_eq!(release(self.ring.len(), &mut self.at, &mut self.held, k), 0);
    }

    fn end(&mut self) {
        while self.held > 0 {
            self.take(usize::MAX);
        }
    }
}

#[test]
fn a_tight_ring_sends_and_leaves_what_a_roomy_one_does() {
    let (mut halts, mut holding) = (0, 0);
    for seed in 0..400 {
        let (mut chance, mut tapes) = (Chance::new(seed), Tapes::new(seed));
        let table = sound_table(&mut chance, 8);
        let stocks = good_list(&mut chance, &table);
        let mut roomy = Play::new(&table, &stocks, 65_536);
        let mut tight = Play::new(&table, &stocks, 80);
        let mut list = stocks.clone();
        for _ in 0..40 {
            let mut entry = tapes.entry(&roomy.table, &roomy.stocks);
            if chance.one_in(10) {
                entry = damage::misread(&mut chance, entry);
            }
            roomy.offer(&entry, 1);
            holding += usize::from(tight.held > 0);
            tight.offer(&entry, 1 + chance.place(30));
            if let (Some(0), [b'h', ..]) = (roomy.answers.last(), &entry[..]) {
                let mut places = list.chunks_exact_mut(9);
                let place = places.find(|place| place[..8] == entry[9..17]);
                place.expect("done, so it is listed")[8] = entry[17];
                halts += 1;
            }
        }
        roomy.end();
        tight.end();
        assert_eq!(tight.answers, roomy.answers);
        assert_eq!(tight.sent, roomy.sent);
        assert!(tight.table == roomy.table);
        assert_eq!(tight.stocks, roomy.stocks);
        assert_eq!(roomy.stocks, list, "nothing but h touches the list");
    }
    assert!(halts > 400 && holding > 2_000, "{halts} {holding}");
}
