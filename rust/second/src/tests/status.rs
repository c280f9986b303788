//! The status: the ones among the bits and the sum in the header, true or not.

use super::kit::*;
use crate::tapes::counts::{bits_at, old_form, table_len};
use crate::tapes::{Chance, Tapes, damage, good_list, sound_table};
use crate::{Status, fresh, status, step};

const REFUSED: Status = Status {
    answer: 10,
    live: 0,
    open: 0,
};

fn told(live: usize, open: usize) -> Status {
    Status {
        answer: 0,
        live,
        open,
    }
}

#[test]
fn a_status_counts_live_orders_and_their_shares() {
    let mut desk = Desk::open(3);
    assert_eq!(status(&desk.table), told(0, 0));
    desk.sent(&O::good("A").entry(2));
    assert_eq!(status(&desk.table), told(1, 500));
    desk.sent(&O::good("B").entry(2));
    desk.sent(&execution(2, "A", 100));
    assert_eq!(status(&desk.table), told(2, 900));
    desk.sent(&cancel(2, "B", 0));
    assert_eq!(status(&desk.table), told(1, 400));
}

/// Of every length only a table's is told, and of every form only today's.
#[test]
fn what_is_no_table_is_10() {
    let lengths: Vec<usize> = (1..=800).map(table_len).collect();
    let mut bytes = vec![0xff; table_len(802)];
    for form in [0, 1, 2, 0xff] {
        bytes[2] = form;
        for len in 0..=bytes.len() {
            let is_table = form == 1 && lengths.contains(&len);
            assert_eq!(status(&bytes[..len]) == REFUSED, !is_table, "{len} {form}");
        }
    }
    let desk = Desk::worked();
    assert_eq!(status(&old_form(&desk.table)), REFUSED);
}

/// Nothing is judged but the length and the form: all bits count, and the sum may be any number.
#[test]
fn a_damaged_table_tells_what_it_holds() {
    let mut chance = Chance::new(71);
    for records in 1..=40 {
        for _ in 0..20 {
            let mut table: Vec<u8> = (0..table_len(records)).map(|_| chance.byte()).collect();
            table[2] = 1;
            let bits = &table[bits_at(&table).unwrap()..];
            let ones: u32 = bits.iter().map(|byte| byte.count_ones()).sum();
            let sum = number(&table[60..64]) as usize;
            assert_eq!(status(&table), told(ones as usize, sum));
        }
    }
    let most = vec![0xff; table_len(800)];
    let most = [&most[..2], &[1], &most[3..]].concat();
    assert_eq!(status(&most), told(800, u32::MAX as usize));
}

/// No record is looked at: one may be damaged in any way, and what is unused may be anything.
#[test]
fn a_status_walks_over_nothing() {
    let mut desk = Desk::worked();
    (0..8).for_each(|place| desk.row_mut(place).fill(b'L'));
    assert_eq!(status(&desk.table), told(1, 400));
    desk.table[..2].fill(0xff);
    desk.table[3..60].fill(0xff);
    assert_eq!(status(&desk.table), told(1, 400));
}

/// After every step of a tape the status is what a walk would find.
#[test]
fn a_status_is_true_after_every_entry() {
    for seed in 0..60 {
        let (mut chance, mut tapes) = (Chance::new(seed), Tapes::new(seed));
        let mut table = vec![0; table_len(20)];
        assert_eq!(fresh(&mut table, 1_000_000, &[*b"ABCD"]), 0);
        if seed % 2 == 0 {
            table = sound_table(&mut chance, 20);
        }
        let mut stocks = good_list(&mut chance, &table);
        for _ in 0..60 {
            let mut entry = tapes.entry(&table, &stocks);
            if chance.one_in(10) {
                entry = damage::misread(&mut chance, entry);
            }
            let (mut ring, mut at, mut held) = ([0; 80], 0, 0);
            step(
                &mut table,
                &mut ring,
                &mut at,
                &mut held,
                &mut stocks,
                &entry,
            );
            let used = number(&table[4..8]) as usize;
            let rows = table[64..].chunks(80).take(used);
            let live: Vec<&[u8]> = rows.filter(|row| row[0] == b'L').collect();
            let open = live.iter().map(|row| {
                let [liable, executed, matched] = [16, 20, 24].map(|at| number(&row[at..at + 4]));
                (liable - executed - matched) as usize
            });
            assert_eq!(status(&table), told(live.len(), open.sum()));
        }
    }
}
