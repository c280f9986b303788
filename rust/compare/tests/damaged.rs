//! Damaged tables, rings, marks, lists of stocks and entries, through the archive: both hosts
//! answer alike, and what is refused changes nothing.

mod four;

use compare::{Desk, Host, Proved, Second};
use four::{LAST_STAMP, PARTS, enter, listing, table};
use pilaqsevi::Marks;
use second::tapes::counts::{bits_at, recount, table_len};
use second::tapes::{Chance, Tapes, damage, good_list, sound_table};

/// A list: of the first two only the last bytes of their symbols differ, and the third symbol is no
/// stock's.
const STOCKS: &[u8; 27] = b"IBM     TIBM    \x80H\x80\0 ib-  T";
/// Where a table has its sum.
const SUM: std::ops::Range<usize> = 60..64;

/// This table with an empty ring and a list of three stocks, of which the order's is one.
fn desk_over(table: Vec<u8>) -> Desk {
    Desk {
        table,
        ring: vec![0; 80],
        stocks: STOCKS.to_vec(),
        ..Desk::default()
    }
}

/// What both hosts answer to an entry at this desk, with the same place; they leave every byte and
/// mark alike, and a refusal changes none. The status is the same too.
fn alike(proved: &Proved, desk: &Desk, entry: &[u8]) -> u8 {
    let (mut after, mut right) = (desk.clone(), desk.clone());
    let told = after.step(proved, entry);
    assert_eq!(told, right.step(&Second, entry), "{desk:?} {entry:?}");
    assert!(after == right, "{desk:?} {entry:?}");
    assert!(told.answer == 0 || after == *desk, "{desk:?} {entry:?}");
    let status = proved.status(&after.table);
    assert_eq!(status, Second.status(&after.table), "{desk:?} {entry:?}");
    told.answer
}

/// The counts are from the paper's list of what makes a table sound, byte by byte. Where a record is
/// damaged, the sum mostly tells.
#[test]
#[cfg_attr(not(archive), ignore = "no archive of the proved functions is linked")]
fn each_byte_of_a_table_is_damaged_in_every_way() {
    let proved = Proved::linked().unwrap();
    let whole = table();
    let parts = [&PARTS[..], &[("bits", 384, 1, 0)]].concat();
    let listing = listing(&whole, &parts, |place, byte, entry| {
        let mut desk = desk_over(whole.clone());
        desk.table[place] = byte;
        alike(&proved, &desk, entry)
    });
    assert_eq!(listing, include_str!("counted.txt"));
}

/// The same with bits and sum as the damaged records have them, so that these tell nothing: what is
/// left to be judged is the old form's.
#[test]
#[cfg_attr(not(archive), ignore = "no archive of the proved functions is linked")]
fn each_byte_of_a_table_that_is_counted_again_is_damaged_in_every_way() {
    let proved = Proved::linked().unwrap();
    let whole = table();
    let listing = listing(&whole, &PARTS, |place, byte, entry| {
        let mut desk = desk_over(whole.clone());
        desk.table[place] = byte;
        if !SUM.contains(&place) {
            recount(&mut desk.table);
        }
        alike(&proved, &desk, entry)
    });
    assert_eq!(listing, include_str!("damaged.txt"));
}

/// Of all shorter lengths only the one without the unused record is a table, once its bits stand where
/// they should.
#[test]
#[cfg_attr(not(archive), ignore = "no archive of the proved functions is linked")]
fn a_cut_table_is_a_table_where_the_paper_says_so() {
    let proved = Proved::linked().unwrap();
    let whole = table();
    let sound = |table: &[u8]| {
        let desk = desk_over(table.to_vec());
        alike(&proved, &desk, &enter(0)) != 10
    };
    let lengths = (0..=whole.len()).filter(|&length| {
        let mut cut = whole[..length].to_vec();
        assert_eq!(sound(&cut), length == whole.len());
        recount(&mut cut);
        sound(&cut)
    });
    assert!(lengths.eq([305, 385]));
}

/// Each bit of the sum and behind the records, spare ones too, is the other one: no table is sound
/// then, and the status counts on.
#[test]
#[cfg_attr(not(archive), ignore = "no archive of the proved functions is linked")]
fn each_bit_is_turned() {
    let proved = Proved::linked().unwrap();
    let mut chance = Chance::new(5);
    for records in (1..=33).chain([800]) {
        let mut desk = desk_over(sound_table(&mut chance, records));
        assert_ne!(alike(&proved, &desk, b""), 10);
        let bits = bits_at(&desk.table).unwrap()..table_len(records);
        for place in SUM.chain(bits) {
            for bit in 0..8 {
                desk.table[place] ^= 1 << bit;
                assert_eq!(alike(&proved, &desk, b""), 10);
                desk.table[place] ^= 1 << bit;
            }
        }
    }
}

/// Of the 255 other values of each byte, how many leave the list good. The first symbol's bytes may
/// fall, and its last one be any below 128. The second's may rise, the first of them to 127 only,
/// and its last be any above a space. The third's first byte must stay above the second's, and its
/// others may be any. A state has one other letter.
const GOOD: [[usize; 9]; 3] = [
    [73, 66, 77, 32, 32, 32, 32, 127, 1],
    [54, 189, 178, 223, 223, 223, 223, 222, 1],
    [181, 255, 255, 255, 255, 255, 255, 255, 1],
];

#[test]
#[cfg_attr(not(archive), ignore = "no archive of the proved functions is linked")]
fn each_byte_of_a_list_is_damaged_in_every_way() {
    let proved = Proved::linked().unwrap();
    let mut desk = desk_over(table());
    let halt = [b"h".as_slice(), &LAST_STAMP.to_be_bytes(), b"IBM     H"].concat();
    for (at, &good) in GOOD.as_flattened().iter().enumerate() {
        let whole = desk.stocks[at];
        let mut stays = 0;
        for by in 1..=255 {
            desk.stocks[at] = whole.wrapping_add(by);
            // A new order and a halt in what was the first stock, listed still or not.
            let answer = alike(&proved, &desk, &enter(3));
            assert_eq!(answer == 14, alike(&proved, &desk, &halt) == 14);
            stays += usize::from(answer != 14);
        }
        desk.stocks[at] = whole;
        assert_eq!(stays, good, "byte {at}");
    }
}

/// Of all shorter lengths only those of whole places are a list's.
#[test]
#[cfg_attr(not(archive), ignore = "no archive of the proved functions is linked")]
fn a_cut_list_is_a_list_where_the_paper_says_so() {
    let proved = Proved::linked().unwrap();
    let mut desk = desk_over(table());
    let good = |length: &usize| {
        desk.stocks = STOCKS[..*length].to_vec();
        alike(&proved, &desk, &enter(3)) != 14
    };
    let lengths: Vec<usize> = (0..=STOCKS.len()).filter(good).collect();
    assert_eq!(lengths, [0, 9, 18, 27]);
}

/// The longest list, one place more, and one byte more or less.
#[test]
#[cfg_attr(not(archive), ignore = "no archive of the proved functions is linked")]
fn a_list_of_2_000_places_is_the_longest() {
    let proved = Proved::linked().unwrap();
    let place = |number: u64| [number.to_be_bytes().as_slice(), b"T"].concat();
    let all: Vec<u8> = (0..2_002).flat_map(place).collect();
    let mut desk = desk_over(table());
    for length in (17_982..=18_018).chain([0, 9]) {
        desk.stocks = all[..length].to_vec();
        let wrong = length > 18_000 || length % 9 != 0;
        let answer = alike(&proved, &desk, &enter(3));
        assert_eq!(answer == 14, wrong, "{length}");
    }
}

/// A sound table, a right ring with right marks, a good list, and an entry that mostly makes sense
/// there.
fn case(chance: &mut Chance, tapes: &mut Tapes) -> (Desk, Vec<u8>) {
    let records = 1 + chance.place(8);
    let table = sound_table(chance, records);
    let length = if chance.one_in(50) {
        damage::right_ring_length(chance)
    } else {
        80 + chance.place(120)
    };
    let marks = Marks {
        at: chance.place(length),
        held: chance.place(length + 1),
    };
    let stocks = good_list(chance, &table);
    let entry = tapes.entry(&table, &stocks);
    let ring = vec![chance.byte(); length];
    let desk = Desk {
        table,
        ring,
        stocks,
        marks,
    };
    (desk, entry)
}

/// Of table, ring, marks, list and entry one or several are damaged; the first in the paper's order
/// is told.
#[test]
#[cfg_attr(not(archive), ignore = "no archive of the proved functions is linked")]
fn damage_at_random_is_answered_alike_and_changes_nothing() {
    let proved = Proved::linked().unwrap();
    let mut answered = [0; 16];
    for seed in 1..=4 {
        let (mut chance, mut tapes) = (Chance::new(seed), Tapes::new(seed));
        for _ in 0..25_000 {
            let (mut desk, mut entry) = case(&mut chance, &mut tapes);
            if chance.one_in(2) {
                damage::table(&mut chance, &mut desk.table);
            }
            if chance.one_in(20) {
                desk.ring = vec![0; damage::ring_length(&mut chance)];
            }
            if chance.one_in(4) {
                let Marks { at, held } = &mut desk.marks;
                damage::marks(&mut chance, desk.ring.len(), at, held);
            }
            if chance.one_in(4) {
                damage::stocks(&mut chance, &mut desk.stocks);
            }
            if chance.one_in(3) {
                entry = damage::misread(&mut chance, entry);
            }
            answered[usize::from(alike(&proved, &desk, &entry))] += 1;
            released_alike(&proved, &desk, &mut chance);
        }
    }
    for answer in [0, 1, 2, 3, 4, 5, 7, 8, 9, 10, 11, 14, 15] {
        assert!(answered[answer] > 100, "{answered:?}");
    }
}

/// Reads and releases over the same marks.
fn released_alike(proved: &Proved, desk: &Desk, chance: &mut Chance) {
    let Desk { ring, marks, .. } = desk;
    assert_eq!(proved.read(ring, *marks), Second.read(ring, *marks));
    let any = chance.place(ring.len() + 2);
    let k = chance.pick(&[0, 1, any, marks.held, usize::MAX]);
    let (mut after, mut right) = (*marks, *marks);
    let answer = proved.release(ring.len(), &mut after, k);
    assert_eq!(answer, Second.release(ring.len(), &mut right, k));
    assert_eq!(after, right);
    assert!(answer == 0 || after == *marks);
}
