//! What a table counts, told and rebuilt as a Rust programmer would by hand: by walking the records, or
//! from the bits and the sum.
//!
//! None is inlined, since the proved ones are calls into an archive.

use pilaqsevi::{MOST_RECORDS, Status, table_size};

use crate::plain::{
    COUNTED, FORM, Header, Parts, SUM, count, live, number, open_shares, split, used,
};

const DONE: u8 = 0;
const NOT_SOUND: u8 = 10;
const NO_ROOM: u8 = 13;

/// What a status screen did before: every used record of a sound table is looked at.
#[inline(never)]
pub fn walking(table: &[u8]) -> Status {
    let live = used(table).iter().filter(|record| live(record));
    live.fold(Status::default(), |status, record| Status {
        live: status.live + 1,
        open: status.open + open_shares(record) as usize,
    })
}

/// The same job as the proved status: length and form are judged, and nothing else is.
#[inline(never)]
pub fn status(table: &[u8]) -> Option<Status> {
    let Parts { header, bits, .. } = split(table)?;
    let live = bits.iter().map(|byte| byte.count_ones() as usize).sum();
    let open = number(header, SUM) as usize;
    (header[FORM] == COUNTED).then_some(Status { live, open })
}

/// The same job as the proved converter.
#[inline(never)]
pub fn convert(old: &[u8], table: &mut [u8]) -> u8 {
    let Some((header, rest)) = old.split_first_chunk::<64>() else {
        return NOT_SOUND;
    };
    let (records, []) = rest.as_chunks() else {
        return NOT_SOUND;
    };
    let in_old_form = |header: &Header| header[FORM] == 0 && header[SUM..] == [0; 4];
    if !(1..=MOST_RECORDS).contains(&records.len()) || !in_old_form(header) {
        return NOT_SOUND;
    }
    let Some(count) = count(header, records) else {
        return NOT_SOUND;
    };
    if table.len() != table_size(records.len()) {
        return NO_ROOM;
    }
    let (front, bits) = table.split_at_mut(old.len());
    front.copy_from_slice(old);
    front[FORM] = COUNTED;
    front[SUM..64].copy_from_slice(&count.open.to_be_bytes());
    bits.copy_from_slice(&count.bits[..bits.len()]);
    DONE
}

#[cfg(test)]
mod tests {
    use pilaqsevi::{Status, old_table_size, table_size};
    use second::tapes::{Chance, damage, sound_table};

    use super::{convert, status, walking};

    #[test]
    fn tell_as_the_second_host_does() {
        let mut chance = Chance::new(5);
        let (mut told, mut refused) = (0, 0);
        for _ in 0..6_000 {
            let records = 1 + chance.place(20);
            let mut table = sound_table(&mut chance, records);
            assert_eq!(status(&table), Some(walking(&table)));
            damage::table(&mut chance, &mut table);
            let right = second::status(&table);
            let Status { live, open } = status(&table).unwrap_or_default();
            let answer = if status(&table).is_some() { 0 } else { 10 };
            assert_eq!((answer, live, open), (right.answer, right.live, right.open));
            *(if answer == 0 { &mut told } else { &mut refused }) += 1;
        }
        assert!(told > 1_000 && refused > 300, "{told} {refused}");
    }

    /// Old tables, many of them damaged, into buffers of which some are a byte too long or too short.
    #[test]
    fn converts_as_the_second_host_does() {
        let mut chance = Chance::new(6);
        let mut answered = [0; 16];
        for _ in 0..6_000 {
            let records = 1 + chance.place(20);
            let mut old = sound_table(&mut chance, records);
            if chance.one_in(2) {
                damage::table(&mut chance, &mut old);
            }
            old.truncate(old_table_size(records));
            if old.len() >= 64 && !chance.one_in(8) {
                old[2] = 0;
                old[60..64].fill(0);
            }
            let length = table_size(records) - 1 + chance.pick(&[0, 1, 1, 1, 2]);
            let (mut table, mut right) = (vec![0x55; length], vec![0x55; length]);
            let answer = second::convert(&old, &mut right);
            assert_eq!(convert(&old, &mut table), answer);
            assert!(table == right);
            answered[usize::from(answer)] += 1;
        }
        for answer in [0, 10, 13] {
            assert!(answered[answer] > 500, "{answered:?}");
        }
    }
}
