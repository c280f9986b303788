//! The converter: a table of the old form becomes today's, or is refused and nothing is touched.

use super::judge::sound_by_bytes;
use super::kit::*;
use crate::tapes::counts::{old_form, old_len, table_len};
use crate::tapes::{Chance, damage, sound_table};
use crate::{Host, convert, step};

/// What is converted into a buffer of this length, or the refusal; it has touched nothing then.
fn converted(old: &[u8], len: usize) -> Result<Vec<u8>, u8> {
    let mut table = vec![0x5a; len];
    let answer = convert(old, &mut table);
    if answer == 0 {
        return Ok(table);
    }
    assert_eq!(table, vec![0x5a; len], "refused with {answer}");
    Err(answer)
}

/// A worked table has a live order, a dead one and a rejected token, and behind them anything.
fn worked() -> Desk {
    let mut desk = Desk::worked();
    desk.sent(&O::good("B").entry(4));
    desk.sent(&cancel(4, "A", 0));
    let bad = O {
        shares: 0,
        ..O::good("R")
    };
    desk.sent(&bad.entry(4));
    (3..8).for_each(|place| desk.row_mut(place).fill(b'L'));
    desk
}

#[test]
fn a_converted_table_is_the_old_one_counted() {
    let table = worked().table;
    let old = old_form(&table);
    assert_eq!((old.len(), table.len()), (704, 705));
    assert_eq!((old[2], &old[60..64]), (0, &[0; 4][..]));
    let made = converted(&old, 705).unwrap();
    assert_eq!(made, table);
    // By the paper's words: all but these bytes are the old ones.
    assert_eq!((made[2], number(&made[60..64])), (1, 500));
    assert_eq!(made[704], 0b10);
    assert_eq!((&made[..2], &made[3..60]), (&old[..2], &old[3..60]));
    assert_eq!(made[64..704], old[64..]);
}

#[test]
fn what_is_not_sound_is_told_before_a_wrong_length() {
    let old = old_form(&worked().table);
    for len in 0..=800 {
        let right = len == 705;
        assert_eq!(converted(&old, len).err(), (!right).then_some(13));
        let mut unsound = old.clone();
        unsound[0] = 3;
        assert_eq!(converted(&unsound, len), Err(10));
    }
    assert_eq!(converted(&[], 0), Err(10));
}

#[test]
fn the_old_form_has_nothing_to_count_by() {
    let table = worked().table;
    let old = old_form(&table);
    for (at, byte) in [(2, 1), (2, 2), (2, 0xff), (60, 1), (62, 1), (63, 1)] {
        let mut other = old.clone();
        other[at] = byte;
        assert_eq!(converted(&other, 705), Err(10), "byte {at}");
    }
    // Today's own form isn't converted again, and neither are mixtures.
    assert_eq!(converted(&table, 705), Err(10));
    let mut zero = table.clone();
    zero[2] = 0;
    assert_eq!(converted(&zero, 705), Err(10));
    zero[60..64].fill(0);
    assert_eq!(converted(&zero, 705), Err(10), "no old table is so long");
    assert!(converted(&zero[..704], 705).is_ok());
}

/// A step takes no table of the old form, in its length or in any.
#[test]
fn a_step_takes_no_old_table() {
    let mut desk = worked();
    let entry = cancel(5, "B", 0);
    let today = desk.table.clone();
    for old in [
        old_form(&today),
        [old_form(&today), vec![0]].concat(),
        [&today[..2], &[0], &today[3..]].concat(),
    ] {
        desk.table = old;
        assert_eq!(desk.answer(&entry), 10);
    }
    desk.table = converted(&old_form(&today), 705).unwrap();
    assert_eq!(desk.answer(&entry), 0);
}

/// Old tables of 634 to 641 records are as long as today's of one record less, and no others are as
/// long as any.
#[test]
fn a_length_may_be_both_forms() {
    let todays: Vec<usize> = (1..=800).map(table_len).collect();
    let both = (1..=800).filter(|&records| todays.contains(&old_len(records)));
    assert!(both.eq(634..=641));
    let mut chance = Chance::new(61);
    for records in 633..=642 {
        let table = sound_table(&mut chance, records);
        let mut old = old_form(&table);
        assert!(converted(&old, table_len(records)) == Ok(table.clone()));
        assert_eq!(converted(&old, table_len(records - 1)), Err(13));
        assert_eq!(converted(&table, table_len(records)), Err(10));
        let (mut ring, mut at, mut held) = ([0; 80], 0, 0);
        let told = step(&mut old, &mut ring, &mut at, &mut held, &mut [], b"");
        assert_eq!(told.answer, 10);
    }
}

/// Every number of records, and one too many.
#[test]
fn tables_of_every_length_are_converted() {
    let mut chance = Chance::new(62);
    for records in 1..=801 {
        let table = sound_table(&mut chance, records);
        let made = converted(&old_form(&table), table_len(records));
        let right = if records <= 800 { Ok(table) } else { Err(10) };
        assert!(made == right, "{records} records");
    }
}

#[test]
fn damaged_old_tables_are_judged_alike_by_two_judges() {
    let mut chance = Chance::new(63);
    let mut answered = [0; 14];
    for _ in 0..8_000 {
        let records = 1 + chance.place(18);
        let mut old = old_form(&sound_table(&mut chance, records));
        damage::old_table(&mut chance, &mut old);
        let sound = sound_by_bytes(&old, true);
        let right = table_len(old.len().saturating_sub(64) / 80);
        let len = right + chance.pick(&[0, 0, 0, 1]);
        let answer = match converted(&old, len) {
            Ok(made) => {
                assert_eq!(old_form(&made), old);
                assert!(sound_by_bytes(&made, false));
                assert!(Host::load(&made).is_some());
                0
            }
            Err(answer) => answer,
        };
        let expected = [[10, 10], [0, 13]][usize::from(sound)][usize::from(len != right)];
        assert_eq!(answer, expected);
        answered[usize::from(answer)] += 1;
    }
    assert!(
        answered[0] > 1_000 && answered[10] > 1_000 && answered[13] > 500,
        "{answered:?}"
    );
}
