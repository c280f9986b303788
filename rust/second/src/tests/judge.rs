//! A second judge of tables for the first one: soundness once more, straight from the bytes.

use super::kit::number;

/// Whether a table is sound, in the old form or in today's. Of the old one there are no bits, and no
/// sum.
pub fn sound_by_bytes(table: &[u8], old: bool) -> bool {
    let bits = |records: usize| if old { 0 } else { records.div_ceil(8) };
    let mut counts = (1..=800).rev();
    let Some(records) = counts.find(|&n| 64 + 80 * n + bits(n) == table.len()) else {
        return false;
    };
    let used = number(&table[4..8]);
    let (rows, bits) = table[64..].split_at(80 * records);
    let rows = || rows.chunks(80).take(used as usize);
    let counted = if old {
        table[60..64] == [0; 4]
    } else {
        counted(rows(), number(&table[60..64]), bits)
    };
    header(table)
        && table[2] == u8::from(!old)
        && used <= records as u64
        && counted
        && rows().all(row)
}

fn header(table: &[u8]) -> bool {
    let shaped = |firm: &[u8]| {
        (1..=4).any(|n| {
            firm[..n].iter().all(|b| (65..=90).contains(b)) && firm[n..].iter().all(|&b| b == 32)
        })
    };
    let (day, count) = (table[0], usize::from(table[1]));
    let firms: Vec<&[u8]> = table[28..60].chunks(4).collect();
    day < 3
        && (1..=8).contains(&count)
        && firms[..count].iter().all(|firm| shaped(firm))
        && firms[count..].iter().all(|firm| number(firm) == 0)
        && number(&table[3..4]) < 1 << count
        && number(&table[8..16]) < 86_400_000_000_000
        && number(&table[16..24]).wrapping_sub(1) < 10_u64.pow(18)
        && number(&table[24..28]).wrapping_sub(1) < 1_000_000
}

fn row(row: &[u8]) -> bool {
    let legal = b"ABCDEFGHIJKLMNOPQRSTUVWXYZabcdefghijklmnopqrstuvwxyz0123456789 ";
    let spent = number(&row[20..24]) + number(&row[24..28]);
    let liable = number(&row[16..20]);
    row[1..15].iter().all(|b| legal.contains(b))
        && match row[0] {
            76 => spent < liable && liable < 1_000_000,
            68 => spent == liable && liable < 1_000_000,
            82 => row[15..].iter().all(|&b| b == 0),
            _ => false,
        }
}

/// Whether the sum is that of the live rows, and each bit that is set is one of theirs.
fn counted<'a>(rows: impl Iterator<Item = &'a [u8]>, sum: u64, bits: &[u8]) -> bool {
    let (mut open, mut left) = (0, bits.to_vec());
    for (place, row) in rows.enumerate().filter(|(_, row)| row[0] == b'L') {
        open += number(&row[16..20]) as i64;
        open -= (number(&row[20..24]) + number(&row[24..28])) as i64;
        left[place / 8] ^= 1 << (place % 8);
    }
    open == sum as i64 && left.iter().all(|&byte| byte == 0)
}
