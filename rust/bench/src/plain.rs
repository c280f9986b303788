//! A table judged and searched, and a whole step over it and a list of stocks, as a Rust programmer
//! would by hand: what the proved step is held to.

use pilaqsevi::{Marks, SYMBOL_SIZE};
use second::Told;

use crate::{list, next, ring};

const HEADER_LEN: usize = 64;
const RECORD_LEN: usize = 80;
const MOST_RECORDS: usize = 800;
/// How many records share a byte of the bits behind them, and how many bytes the most records take.
const A_BYTE: usize = 8;
const MOST_BITS: usize = MOST_RECORDS / A_BYTE;
/// Where a header has its form and its sum of open shares.
pub const FORM: usize = 2;
pub const SUM: usize = 60;
/// The form of a table that has them; the old form's byte is 0.
pub const COUNTED: u8 = 1;
const MOST_SHARES: u64 = 999_999;
const HIGHEST_THRESHOLD: u32 = 1_000_000;
const LAST_REFERENCE: u64 = 1_000_000_000_000_000_000;
const DAY_NANOS: u64 = 86_400_000_000_000;
/// The bytes that a Modify, a Cancel and all that is sent begin with: kind or type, stamp, token.
const HEAD_LEN: usize = 23;
/// What is sent at most: those bytes and five more.
const SENT_LEN: usize = HEAD_LEN + 5;
/// An order's flags.
pub const LATE: u8 = 1;
const PENDING: u8 = 2;
const REJECT_SENT: u8 = 4;

pub type Header = [u8; HEADER_LEN];
pub type Record = [u8; RECORD_LEN];
type Stamp = [u8; 8];
type Token = [u8; 14];
pub type Firm = [u8; 4];
pub type Symbol = [u8; SYMBOL_SIZE];

/// A table, cut where its length says.
pub struct Parts<'a> {
    pub header: &'a Header,
    pub records: &'a [Record],
    pub bits: &'a [u8],
}

/// What a walk over the used records counts: a bit for each live order, and their open shares.
pub struct Count {
    pub bits: [u8; MOST_BITS],
    pub open: u32,
}

/// What is wanted of a client's order, or of the next of a firm's.
enum Wish<'a> {
    Modify {
        token: &'a Token,
        side: u8,
        shares: u32,
    },
    Cancel {
        token: &'a Token,
        size: u32,
    },
    Purge {
        firm: &'a Firm,
        symbol: &'a Symbol,
    },
}

/// What becomes of the order, in the fields that a Modify, a Cancel or a w may change, and what is
/// sent: a letter before stamp and token, and the bytes behind them.
struct Deed {
    state: u8,
    side: u8,
    liable: u32,
    flags: u8,
    letter: u8,
    tail: [u8; 5],
    sent_len: usize,
}

/// Whether the table is sound: its header and its used records are, and what is counted of these is
/// what it holds.
pub fn judge(table: &[u8]) -> bool {
    let Some(parts) = split(table) else {
        return false;
    };
    let Parts { header, bits, .. } = parts;
    header[FORM] == COUNTED
        && count(header, parts.records).is_some_and(|count| {
            count.open == number(header, SUM) && count.bits[..bits.len()] == *bits
        })
}

/// Counts the live orders of a table, in one pass that judges them; nothing where header or records
/// aren't sound. Form and sum, in which the old form differs, are the caller's to judge.
pub fn count(header: &Header, records: &[Record]) -> Option<Count> {
    let used = records.get(..number(header, 4) as usize)?;
    if !header_sound(header) {
        return None;
    }
    let (mut bits, mut open) = ([0; MOST_BITS], 0);
    for (place, record) in used.iter().enumerate() {
        if !record_sound(record) {
            return None;
        }
        if live(record) {
            bits[place / A_BYTE] |= 1 << (place % A_BYTE);
            // At most 800 times 999,999, so that it fits.
            open += open_shares(record);
        }
    }
    Some(Count { bits, open })
}

/// The first used record of this token.
pub fn find(table: &[u8], token: &Token) -> Option<usize> {
    let mut used = used(table).iter();
    used.position(|record| record[1..15] == *token)
}

/// The used records; none of a table that can't have so many.
pub fn used(table: &[u8]) -> &[Record] {
    let used = split(table).and_then(|parts| parts.records.get(..number(parts.header, 4) as usize));
    used.unwrap_or_default()
}

/// The whole step of a Modify, a Cancel or a w: table, ring, list and entry judged, the order found,
/// the rule decided, and record, bit, header and message written. Another kind is answered 2, since none
/// is measured.
#[inline(never)]
pub fn step(
    table: &mut [u8],
    ring: &mut [u8],
    marks: &mut Marks,
    stocks: &[u8],
    entry: &[u8],
) -> Told {
    if let Some(wrong) = wrong(table, ring.len(), *marks, stocks) {
        return answer(wrong);
    }
    let Some((stamp, wish)) = read(entry) else {
        return answer(2);
    };
    if let Some(place) = bad_byte(stamp, &wish) {
        return Told { answer: 3, place };
    }
    if stamp[..] < table[8..16] {
        return answer(4);
    }
    if unlisted(table, &wish) {
        return answer(15);
    }
    let Some((place, deed)) = decided(table, wish) else {
        return answer(1);
    };
    let message = message(stamp, &used(table)[place], &deed);
    let put = ring::put(ring, *marks, &message[..deed.sent_len]);
    if put == 0 {
        marks.held += deed.sent_len;
        write(table, place, &deed);
        table[8..16].copy_from_slice(stamp);
    }
    answer(put)
}

/// What is wrong with what is lent, if anything.
fn wrong(table: &[u8], ring_len: usize, marks: Marks, stocks: &[u8]) -> Option<u8> {
    if !judge(table) {
        return Some(10);
    }
    if !ring::right(ring_len, marks) {
        return Some(11);
    }
    (!list::judge(stocks)).then_some(14)
}

/// An answer that has no place.
fn answer(answer: u8) -> Told {
    Told { answer, place: 0 }
}

/// An entry's stamp and what it wishes; nothing where its kind is another or its length isn't its
/// kind's.
fn read(entry: &[u8]) -> Option<(&Stamp, Wish<'_>)> {
    let (kind, rest) = entry.split_first()?;
    let (stamp, body) = rest.split_first_chunk()?;
    let shares = |bytes: &[u8]| bytes.try_into().ok().map(u32::from_be_bytes);
    let wish = match kind {
        b'M' => {
            let (token, rest) = body.split_first_chunk()?;
            let (&side, total) = rest.split_first()?;
            let shares = shares(total)?;
            Wish::Modify {
                token,
                side,
                shares,
            }
        }
        b'X' => {
            let (token, size) = body.split_first_chunk()?;
            let size = shares(size)?;
            Wish::Cancel { token, size }
        }
        b'w' => {
            let (firm, symbol) = body.split_first_chunk()?;
            let symbol = symbol.try_into().ok()?;
            Wish::Purge { firm, symbol }
        }
        _ => return None,
    };
    Some((stamp, wish))
}

/// The first bad byte of an entry: its stamp's first, a token's character, or a Modify's side.
fn bad_byte(stamp: &Stamp, wish: &Wish) -> Option<usize> {
    if long_number(stamp, 0) >= DAY_NANOS {
        return Some(1);
    }
    let (Wish::Modify { token, .. } | Wish::Cancel { token, .. }) = wish else {
        return None;
    };
    let mut token = token.iter();
    if let Some(character) = token.position(|byte| !legal_character(byte)) {
        return Some(9 + character);
    }
    match wish {
        Wish::Modify { side, .. } if !b"BSTE".contains(side) => Some(HEAD_LEN),
        _ => None,
    }
}

/// Whether an entry is a w of a firm that isn't listed.
fn unlisted(table: &[u8], wish: &Wish) -> bool {
    let Wish::Purge { firm, .. } = wish else {
        return false;
    };
    !split(table).is_some_and(|Parts { header, .. }| {
        let mut listed = firms(header).iter().take(usize::from(header[1]));
        listed.any(|listed| listed == *firm)
    })
}

/// Which record an entry changes, and how; nothing where it is ignored.
fn decided(table: &[u8], wish: Wish) -> Option<(usize, Deed)> {
    let place = match wish {
        Wish::Modify { token, .. } | Wish::Cancel { token, .. } => find(table, token),
        Wish::Purge { firm, symbol } => next::walking(table, firm, symbol),
    }?;
    let Parts {
        header, records, ..
    } = split(table)?;
    let record = &records[place];
    let deed = match wish {
        Wish::Modify { side, shares, .. } => modified(record, header[0], side, shares),
        Wish::Cancel { size, .. } => canceled(record, size),
        Wish::Purge { .. } => Some(reduced(record, 0)),
    };
    Some((place, deed?))
}

/// What a Modify makes of its order.
fn modified(record: &Record, day: u8, side: u8, shares: u32) -> Option<Deed> {
    let (old_side, liable) = (record[15], number(record, 16));
    let spent = number(record, 20) + number(record, 24);
    let among_sells = b"STE".contains(&side) && b"STE".contains(&old_side);
    let taken = live(record)
        && day == 1
        && record[64] & LATE == 0
        && (side == old_side || among_sells)
        && spent < shares
        && shares <= liable
        && (side, shares) != (old_side, liable);
    if !taken {
        return None;
    }
    let [a, b, c, d] = (shares - spent).to_be_bytes();
    Some(Deed {
        state: record[0],
        side,
        liable: shares,
        flags: record[64],
        letter: b'M',
        tail: [side, a, b, c, d],
        sent_len: SENT_LEN,
    })
}

/// What a Cancel makes of its order. The size is what may be executed in all, so shares lost to a self
/// match don't count against it.
fn canceled(record: &Record, size: u32) -> Option<Deed> {
    let new_open = size.saturating_sub(number(record, 20));
    let flags = record[64];
    if !live(record) || new_open >= open_shares(record) || flags & PENDING != 0 {
        return None;
    }
    if flags & LATE != 0 {
        return canceled_late(record, size);
    }
    Some(reduced(record, new_open))
}

/// An order of which fewer shares stay open, or none as after a w.
fn reduced(record: &Record, new_open: u32) -> Deed {
    let decrement = open_shares(record) - new_open;
    let [a, b, c, d] = decrement.to_be_bytes();
    Deed {
        state: if new_open == 0 { b'D' } else { b'L' },
        side: record[15],
        liable: number(record, 16) - decrement,
        flags: record[64],
        letter: b'C',
        tail: [a, b, c, d, b'U'],
        sent_len: SENT_LEN,
    }
}

/// Whether a used record's order is live.
pub fn live(record: &Record) -> bool {
    record[0] == b'L'
}

/// The open shares of a sound order; a dead one has none.
pub fn open_shares(record: &Record) -> u32 {
    number(record, 16) - number(record, 20) - number(record, 24)
}

/// In the late period a Cancel to size 0 waits, and any other is refused once a token.
fn canceled_late(record: &Record, size: u32) -> Option<Deed> {
    let (letter, flag) = match size {
        0 => (b'P', PENDING),
        _ => (b'I', REJECT_SENT),
    };
    let flags = record[64];
    (flags & flag == 0).then_some(Deed {
        state: record[0],
        side: record[15],
        liable: number(record, 16),
        flags: flags | flag,
        letter,
        tail: [0; 5],
        sent_len: HEAD_LEN,
    })
}

/// The message of a deed, and zeros behind a short one.
fn message(stamp: &Stamp, record: &Record, deed: &Deed) -> [u8; SENT_LEN] {
    let mut message = [0; SENT_LEN];
    message[0] = deed.letter;
    message[1..9].copy_from_slice(stamp);
    message[9..HEAD_LEN].copy_from_slice(&record[1..15]);
    message[HEAD_LEN..].copy_from_slice(&deed.tail);
    message
}

/// Writes what a deed changes of its record, and of what the table counts: where the order is dead
/// now its bit goes, and the sum is what it was but for this order.
fn write(table: &mut [u8], place: usize, deed: &Deed) {
    let bits = HEADER_LEN + RECORD_LEN * room(table.len());
    let (records, _) = table[HEADER_LEN..].as_chunks_mut();
    let record: &mut Record = &mut records[place];
    let before = open_shares(record);
    record[0] = deed.state;
    record[15] = deed.side;
    record[16..20].copy_from_slice(&deed.liable.to_be_bytes());
    record[64] = deed.flags;
    let after = open_shares(record);
    if !live(record) {
        table[bits + place / A_BYTE] &= !(1 << (place % A_BYTE));
    }
    let header: &mut Header = table
        .first_chunk_mut()
        .expect("a judged table has a header");
    let sum = number(header, SUM) - before + after;
    header[SUM..].copy_from_slice(&sum.to_be_bytes());
}

/// The table's parts, where its length is that of 1 to 800 records.
pub fn split(table: &[u8]) -> Option<Parts<'_>> {
    let (header, rest) = table.split_first_chunk()?;
    let count = room(table.len());
    let (records, bits) = rest.split_at(RECORD_LEN * count);
    let right = (1..=MOST_RECORDS).contains(&count) && bits.len() == count.div_ceil(A_BYTE);
    let (records, _) = records.as_chunks();
    right.then_some(Parts {
        header,
        records,
        bits,
    })
}

/// How many records a table of so many bytes has room for, each with its bit.
pub fn room(table_len: usize) -> usize {
    let body = table_len.saturating_sub(HEADER_LEN);
    A_BYTE * body / (A_BYTE * RECORD_LEN + 1)
}

fn header_sound(header: &Header) -> bool {
    let (firms, count) = (firms(header), usize::from(header[1]));
    header[0] <= 2
        && (1..=firms.len()).contains(&count)
        // The bits of blocked firms; with eight firms none is past the count.
        && u32::from(header[3]) >> count == 0
        && long_number(header, 8) < DAY_NANOS
        && (1..=LAST_REFERENCE).contains(&long_number(header, 16))
        && (1..=HIGHEST_THRESHOLD).contains(&number(header, 24))
        && firms[..count].iter().all(firm_shaped)
        && firms[count..].iter().all(|place| *place == [0; 4])
}

/// The places for firms, of which only so many as the count says hold one.
fn firms(header: &Header) -> &[Firm] {
    let (firms, _) = header[28..60].as_chunks();
    firms
}

/// 1 to 4 capitals, then spaces.
fn firm_shaped(firm: &Firm) -> bool {
    let code = firm.trim_ascii_end();
    // Only spaces may follow the capitals, and trimming takes other white space too.
    !code.is_empty()
        && code.iter().all(u8::is_ascii_uppercase)
        && firm[code.len()..].iter().all(|&byte| byte == b' ')
}

fn record_sound(record: &Record) -> bool {
    let liable = u64::from(number(record, 16));
    let spent = u64::from(number(record, 20)) + u64::from(number(record, 24));
    token_legal(&record[1..15])
        && match record[0] {
            b'L' => spent < liable && liable <= MOST_SHARES,
            b'D' => spent == liable && liable <= MOST_SHARES,
            b'R' => record[15..].iter().all(|&byte| byte == 0),
            _ => false,
        }
}

fn token_legal(token: &[u8]) -> bool {
    token.iter().all(legal_character)
}

fn legal_character(byte: &u8) -> bool {
    *byte == b' ' || byte.is_ascii_alphanumeric()
}

/// Four bytes of an array as a number; the places are constants, so nothing is left to check.
pub fn number<const N: usize>(bytes: &[u8; N], at: usize) -> u32 {
    let mut four = [0; 4];
    four.copy_from_slice(&bytes[at..at + 4]);
    u32::from_be_bytes(four)
}

/// Eight bytes likewise.
fn long_number<const N: usize>(bytes: &[u8; N], at: usize) -> u64 {
    let mut eight = [0; 8];
    eight.copy_from_slice(&bytes[at..at + 8]);
    u64::from_be_bytes(eight)
}

#[cfg(test)]
mod tests {
    use pilaqsevi::Marks;
    use second::tapes::{Chance, Tapes, damage, good_list, sound_table};
    use second::{Host, Told};

    use super::{SUM, judge, step};
    use crate::scene::{Passed, Scene};

    /// Where a table's second record has its state, its shares and its flags.
    const STATE: usize = 64 + 80;
    const SHARES: usize = STATE + 16;
    const FLAGS: usize = STATE + 64;

    #[test]
    fn judges_as_the_second_host_does() {
        let mut chance = Chance::new(1);
        let (mut sound, mut unsound) = (0, 0);
        for _ in 0..6_000 {
            let records = 1 + chance.place(12);
            let mut table = sound_table(&mut chance, records);
            assert!(judge(&table));
            damage::table(&mut chance, &mut table);
            let judged = judge(&table);
            assert_eq!(judged, Host::load(&table).is_some());
            *(if judged { &mut sound } else { &mut unsound }) += 1;
        }
        assert!(sound > 1_000 && unsound > 1_000, "{sound} {unsound}");
    }

    #[test]
    fn judges_all_blocks_as_the_second_host_does() {
        let mut table = Scene::new(1).table;
        for count in 1..=8 {
            table[1] = count;
            table[28..28 + 4 * usize::from(count)].fill(b'A');
            for byte in 0..=255 {
                let bits_of_firms = u32::from(byte) < 1 << count;
                for (place, right) in [(2, byte == 1), (3, bits_of_firms)] {
                    let before = table[place];
                    table[place] = byte;
                    assert_eq!(judge(&table), right);
                    assert_eq!(Host::load(&table).is_some(), right);
                    table[place] = before;
                }
            }
        }
    }

    /// A step by hand and the second host's, which must tell the same and leave the same bytes. Gives
    /// what they told.
    fn both(
        table: &mut Vec<u8>,
        ring: &mut [u8; 80],
        marks: &mut Marks,
        stocks: &mut [u8],
        entry: &[u8],
    ) -> Told {
        let mut right = (table.clone(), *ring, marks.at, marks.held);
        let listed = stocks.to_vec();
        let (t, r, a, h) = (&mut right.0, &mut right.1, &mut right.2, &mut right.3);
        let told = second::step(t, r, a, h, stocks, entry);
        assert_eq!(step(table, ring, marks, &listed, entry), told);
        assert!((table.as_slice(), *ring) == (right.0.as_slice(), right.1));
        assert_eq!((marks.at, marks.held), (right.2, right.3));
        assert!(listed == stocks, "none of the kinds touches the list");
        told
    }

    /// Entries of a kind over all kinds of tables, rings and lists, damaged ones among them. Gives how
    /// often each answer was told.
    fn goes_as_the_second_host_does(kind: u8) -> [u32; 16] {
        let (mut chance, mut tapes) = (Chance::new(3), Tapes::new(3));
        let mut answered = [0; 16];
        while answered.iter().sum::<u32>() < 20_000 {
            let records = 1 + chance.place(6);
            let mut table = sound_table(&mut chance, records);
            if chance.one_in(2) {
                table[0] = 1;
            }
            let mut stocks = good_list(&mut chance, &table);
            let mut entry = tapes.entry(&table, &stocks);
            while entry.first() != Some(&kind) {
                entry = tapes.entry(&table, &stocks);
            }
            if chance.one_in(8) {
                damage::table(&mut chance, &mut table);
            }
            if chance.one_in(8) {
                damage::stocks(&mut chance, &mut stocks);
            }
            let (at, held) = (chance.place(81), chance.place(82));
            let (mut ring, mut marks) = ([0; 80], Marks { at, held });
            let told = both(&mut table, &mut ring, &mut marks, &mut stocks, &entry);
            answered[usize::from(told.answer)] += 1;
        }
        for answer in [0, 1, 2, 3, 4, 9, 10, 11, 14] {
            assert!(answered[answer] > 20, "{answered:?}");
        }
        answered
    }

    #[test]
    fn modifies_as_the_second_host_does() {
        goes_as_the_second_host_does(b'M');
    }

    #[test]
    fn cancels_as_the_second_host_does() {
        goes_as_the_second_host_does(b'X');
    }

    #[test]
    fn purges_as_the_second_host_does() {
        let answered = goes_as_the_second_host_does(b'w');
        assert!(answered[15] > 1_000, "{answered:?}");
    }

    /// The scene's entry with such an end, for an order with these flags, into a ring with room for so
    /// many bytes: the answer, the letter of what is sent, and the order's state after it.
    fn offered(scene: &Scene, end: &[u8], flags: u8, room: usize) -> (u8, Option<u8>, u8) {
        let mut scene = scene.clone();
        scene.table[FLAGS] = flags;
        let end_at = scene.entry.len() - end.len();
        scene.entry[end_at..].copy_from_slice(end);
        let (at, held) = (70, 80 - room);
        let (mut ring, mut marks) = ([0; 80], Marks { at, held });
        let (table, stocks) = (&mut scene.table, &mut scene.stocks);
        let told = both(table, &mut ring, &mut marks, stocks, &scene.entry);
        let sent = (marks.held > held).then(|| ring[(at + held) % 80]);
        (told.answer, sent, scene.table[STATE])
    }

    /// The scene in the table of two records that both of its orders, which are live, would have.
    fn in_two_records(mut scene: Scene) -> Scene {
        scene.table.truncate(64 + 2 * 80);
        scene.table.push(0b11);
        scene
    }

    /// 500 shares of which 100 are executed and 50 self-matched: sizes below 450 would leave less than
    /// the 350 that are open, and those up to 100 nothing. The other order has 500.
    #[test]
    fn cancels_to_every_size_under_all_flags() {
        let mut scene = in_two_records(Scene::to_cancel(2));
        let shares = [500_u32, 100, 50].map(u32::to_be_bytes);
        scene.table[SHARES..SHARES + 12].copy_from_slice(shares.as_flattened());
        scene.table[SUM..64].copy_from_slice(&850_u32.to_be_bytes());
        for size in (0..=501).chain([u32::MAX]) {
            for flags in 0..=255 {
                let (answer, sent, state, len) = match (size, flags & 7) {
                    (450.., _) | (_, 2 | 3 | 6 | 7) | (1.., 5) => (1, None, b'L', 28),
                    (..=100, 0 | 4) => (0, Some(b'C'), b'D', 28),
                    (_, 0 | 4) => (0, Some(b'C'), b'L', 28),
                    (0, _) => (0, Some(b'P'), b'L', 23),
                    _ => (0, Some(b'I'), b'L', 23),
                };
                let size = size.to_be_bytes();
                let right = (answer, sent, state);
                assert_eq!(offered(&scene, &size, flags, len), right);
                let blocked = if answer == 0 { 9 } else { answer };
                let right = (blocked, None, b'L');
                assert_eq!(offered(&scene, &size, flags, len - 1), right);
            }
        }
    }

    /// Of the flags only late keeps an order from a w of its firm and symbol, or of all symbols. What
    /// stands past the firms is no firm, and a blank one isn't the default's.
    #[test]
    fn purges_under_all_flags() {
        let scene = in_two_records(Scene::to_purge(2, &Passed::THOUGH_LIVE));
        let wishes: [(&[u8; 12], u8); 7] = [
            (b"ABCDIBM     ", 0),
            (b"ABCD        ", 0),
            (b"ABCDIBM    A", 1),
            (b"ABCDJBM     ", 1),
            (b"ABCEIBM     ", 15),
            (b"    IBM     ", 15),
            (b"\0\0\0\0IBM     ", 15),
        ];
        for (wish, answer) in wishes {
            for flags in 0..=255 {
                let (answer, blocked, sent, state) = match (answer, flags & 1) {
                    (0, 0) => (0, 9, Some(b'C'), b'D'),
                    (0, _) => (1, 1, None, b'L'),
                    _ => (answer, answer, None, b'L'),
                };
                assert_eq!(offered(&scene, wish, flags, 28), (answer, sent, state));
                assert_eq!(offered(&scene, wish, flags, 27), (blocked, None, b'L'));
            }
        }
    }
}
