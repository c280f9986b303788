//! Tables of the old form through the archive: both hosts convert them to the same bytes or refuse them
//! alike, and what is refused leaves the second buffer alone.

mod four;

use compare::{Desk, Host, Proved, Second};
use four::{PARTS, enter, listing, table};
use second::tapes::counts::{old_form, old_len, table_len};
use second::tapes::{Chance, damage, sound_table};

/// The answers of a converter.
const DONE: u8 = 0;
const NOT_SOUND: u8 = 10;
const WRONG_LENGTH: u8 = 13;

/// What both hosts answer, and the second buffer after it; what is refused has changed nothing, and
/// nothing has changed the old table.
fn alike(proved: &Proved, old: &[u8], buffer: &[u8]) -> (u8, Vec<u8>) {
    let (mut after, mut right) = (buffer.to_vec(), buffer.to_vec());
    let lent = old.to_vec();
    let answer = proved.convert(&lent, &mut after);
    assert_eq!(answer, Second.convert(old, &mut right), "{old:?}");
    assert!(after == right, "{old:?}");
    assert!(answer == DONE || after == buffer, "{old:?}");
    assert!(lent == old, "{old:?}");
    (answer, after)
}

/// What is converted is a table: a step takes it, and the old one that it was made from is still in it.
/// What a step of the old form would be is the same then.
#[test]
#[cfg_attr(not(archive), ignore = "no archive of the proved functions is linked")]
fn each_byte_of_an_old_table_is_damaged_in_every_way() {
    let proved = Proved::linked().unwrap();
    let whole = old_form(&table());
    let listing = listing(&whole, &PARTS, |place, byte, entry| {
        let mut old = whole.clone();
        old[place] = byte;
        let (answer, table) = alike(&proved, &old, &[0x5a; table_len(4)]);
        if answer != DONE {
            return answer;
        }
        assert_eq!(old_form(&table), old);
        let mut desk = Desk {
            table,
            ring: vec![0; 80],
            stocks: b"IBM     T".to_vec(),
            ..Desk::default()
        };
        desk.step(&proved, entry).answer
    });
    assert_eq!(listing, include_str!("damaged.txt"));
}

/// Of all second buffers one is right, and no length is told of an old table that isn't sound.
#[test]
#[cfg_attr(not(archive), ignore = "no archive of the proved functions is linked")]
fn a_second_buffer_has_one_right_length() {
    let proved = Proved::linked().unwrap();
    let today = table();
    let old = old_form(&today);
    let mut unsound = old.clone();
    unsound[0] = 3;
    for length in 0..=table_len(6) {
        let buffer = vec![0xa5; length];
        let (answer, after) = alike(&proved, &old, &buffer);
        if length == today.len() {
            assert_eq!((answer, after), (DONE, today.clone()));
        } else {
            assert_eq!(answer, WRONG_LENGTH);
        }
        for other in [&unsound, &today, &[old.clone(), vec![0]].concat()] {
            assert_eq!(alike(&proved, other, &buffer).0, NOT_SOUND);
        }
        assert_eq!(alike(&proved, &old[..old.len() - 1], &buffer).0, NOT_SOUND);
    }
}

/// From one record to one too many, into buffers around each length. Old tables of 634 to 641 records
/// are as long as today's of one record less; none of them is taken for the other.
#[test]
#[cfg_attr(not(archive), ignore = "no archive of the proved functions is linked")]
fn tables_of_every_length_are_converted() {
    let proved = Proved::linked().unwrap();
    let mut chance = Chance::new(6);
    for records in 1..=801 {
        let today = sound_table(&mut chance, records);
        let old = old_form(&today);
        let is_table = records <= 800;
        let (answer, made) = alike(&proved, &old, &vec![0xa5; today.len()]);
        assert_eq!(answer, if is_table { DONE } else { NOT_SOUND });
        assert!(made == today || !is_table);
        let refused = if is_table { WRONG_LENGTH } else { NOT_SOUND };
        for length in [
            table_len(records - 1),
            old_len(records),
            today.len() - 1,
            today.len() + 1,
            table_len(records + 1),
        ] {
            assert_eq!(alike(&proved, &old, &vec![0xa5; length]).0, refused);
        }
        assert_eq!(alike(&proved, &today, &today).0, NOT_SOUND);
        let mut desk = Desk {
            table: old,
            ..Desk::default()
        };
        assert_eq!(proved.status(&desk.table), Second.status(&desk.table));
        assert_eq!(desk.step(&proved, &enter(0)).answer, NOT_SOUND);
    }
}

/// Damage at random, into buffers that are often of another length.
#[test]
#[cfg_attr(not(archive), ignore = "no archive of the proved functions is linked")]
fn damage_at_random_is_answered_alike_and_changes_nothing() {
    let proved = Proved::linked().unwrap();
    let mut answered = [0; 14];
    for seed in 1..=4 {
        let mut chance = Chance::new(seed);
        for _ in 0..25_000 {
            let records = 1 + chance.place(18);
            let mut old = old_form(&sound_table(&mut chance, records));
            if !chance.one_in(3) {
                damage::old_table(&mut chance, &mut old);
            }
            let right = table_len(old.len().saturating_sub(64) / 80);
            let lengths = [right, right, right, old.len(), right + 1, right - 1];
            let buffer = vec![chance.byte(); chance.pick(&lengths)];
            answered[usize::from(alike(&proved, &old, &buffer).0)] += 1;
        }
    }
    for answer in [DONE, NOT_SOUND, WRONG_LENGTH] {
        assert!(answered[usize::from(answer)] > 10_000, "{answered:?}");
    }
}
