//! What is measured on: tables with so many orders, a short and a long list of stocks, a legal message
//! of each kind, and those that entries are made of.

use std::ops::RangeInclusive;

use pilaqsevi::{HEADER_SIZE, RECORD_SIZE, old_table_size, table_size};
use second::tapes::{Chance, message};
use second::{echo, fresh, step};

use crate::plain::{FORM, Firm, Header, SUM, Symbol, number, room, used};
use crate::race::CALLS_A_RACE;

/// The table's records, of which some are used.
const RECORDS: usize = 800;
/// The stamp of all entries; an equal stamp is never too low.
const STAMP: [u8; 8] = 1_u64.to_be_bytes();
/// The firm and the stock of every order that isn't made another's, and those of the others.
const FIRM: &Firm = b"ABCD";
const OTHER_FIRM: &Firm = b"WXYZ";
const STOCK: &Symbol = b"IBM     ";
const OTHER_STOCK: &Symbol = b"AAPL    ";
/// Lists of that stock alone and of both, and they trade.
const ONE_STOCK: &[u8; 9] = b"IBM     T";
const BOTH_STOCKS: &[u8; 18] = b"AAPL    TIBM     T";
/// The price of every order and execution.
const PRICE: [u8; 4] = 1_234_500_u32.to_be_bytes();
/// The shares of every order.
const SHARES: u32 = 500;
/// The shares of the order that is cancelled again and again, the most that there are, and how many
/// of them are spent: of both kinds, since a Cancel counts only one of them.
const MOST_SHARES: u32 = 999_999;
const EXECUTED: u32 = 100_000;
const SELF_MATCHED: u32 = 50_000;
/// The highest size to which a Cancel of it is done: one below executed + open. From there on each
/// lower size is done too, and a race is over before one leaves nothing open.
const FIRST_SIZE: u32 = MOST_SHARES - SELF_MATCHED - 1;
const _: () = assert!(FIRST_SIZE - CALLS_A_RACE > EXECUTED);
/// What is open of it.
const OPEN: u32 = MOST_SHARES - EXECUTED - SELF_MATCHED;

/// A table, a list, the token of the table's last used record, and an entry for that record, which is
/// done after a search of all used ones. With a little changed in it or in the table it is done again,
/// and so on all through a race, so that no table is laid anew.
#[derive(Clone)]
pub struct Scene {
    pub table: Vec<u8>,
    pub stocks: Vec<u8>,
    pub token: [u8; 14],
    pub entry: Vec<u8>,
    /// What each call is answered: 0, but where nothing is left to be found.
    pub answer: u8,
    /// Makes table and entry ready for the next call.
    pub next: fn(&mut [u8], &mut [u8]),
}

/// Which nine characters all tokens of a table share; in the other five each has its number.
#[derive(Clone, Copy)]
pub enum Alike {
    /// A client's running number, as most have it.
    InFront,
    #[cfg_attr(
        not(any(weighed, test)),
        expect(dead_code, reason = "only finds are measured on it")
    )]
    AtTheEnd,
}

/// Why a w passes over an order.
#[derive(Clone, Copy)]
pub enum Passed {
    OtherFirm,
    OtherStock,
    Late,
    Dead,
}

impl Passed {
    pub const FOR_ALL_REASONS: [Passed; 4] = [
        Passed::OtherFirm,
        Passed::OtherStock,
        Passed::Late,
        Passed::Dead,
    ];
    pub const THOUGH_LIVE: [Passed; 3] = [Passed::OtherFirm, Passed::OtherStock, Passed::Late];
    pub const AS_DEAD: [Passed; 1] = [Passed::Dead];
}

impl Scene {
    /// A day that is open, with so many live orders to sell, all in the one stock that is listed. Its
    /// entry is a Modify, and the next one changes the side back.
    pub fn new(used: usize) -> Scene {
        Scene::of(used, Alike::InFront)
    }

    /// The same, with tokens that are alike there.
    pub fn of(used: usize, alike: Alike) -> Scene {
        let token = token(used, alike);
        let modify = entry(b'M', &token, &[b"T", &SHARES.to_be_bytes()]);
        Scene {
            table: Day::new(RECORDS, &[*FIRM])
                .with_orders(1..=used, alike)
                .table,
            stocks: ONE_STOCK.to_vec(),
            token,
            entry: modify,
            answer: 0,
            next: change_side,
        }
    }

    /// The same day, but the last order has the most shares, some of them spent. Its entry is a
    /// Cancel, and the next one leaves one share less.
    pub fn to_cancel(used: usize) -> Scene {
        let token = token(used, Alike::InFront);
        let cancel = entry(b'X', &token, &[&FIRST_SIZE.to_be_bytes()]);
        let day = Day::new(RECORDS, &[*FIRM]).with_orders(1..=used - 1, Alike::InFront);
        Scene {
            table: day.with_a_large_order(&token).table,
            stocks: ONE_STOCK.to_vec(),
            token,
            entry: cancel,
            answer: 0,
            next: lower_size,
        }
    }

    /// The same last order, but the entry is a w, which passes over all the others for one of these
    /// reasons each, in turn. For the next one the order is made live again.
    pub fn to_purge(used: usize, reasons: &[Passed]) -> Scene {
        let mut day = Day::new(RECORDS, &[*FIRM, *OTHER_FIRM]);
        for (order, &reason) in (1..used).zip(reasons.iter().cycle()) {
            day.take_one_to_pass_over(&token(order, Alike::InFront), reason);
        }
        let token = token(used, Alike::InFront);
        Scene {
            table: day.with_a_large_order(&token).table,
            stocks: ONE_STOCK.to_vec(),
            token,
            entry: [b"w".as_slice(), &STAMP, FIRM, STOCK].concat(),
            answer: 0,
            next: revive,
        }
    }

    /// The same after its w, so that any further one is ignored.
    pub fn purged(used: usize) -> Scene {
        let mut scene = Scene::to_purge(used, &Passed::FOR_ALL_REASONS);
        assert_eq!(answer(&mut scene.table, &scene.entry), 0);
        scene.answer = 1;
        scene.next = |_, _| ();
        scene
    }
}

/// A table all of whose records, so many, are live orders.
pub fn full_table(records: usize) -> Vec<u8> {
    let day = Day::new(records, &[*FIRM]);
    day.with_orders(1..=records, Alike::InFront).table
}

/// A table as it was before there were bits behind its records.
pub fn old_form(table: &[u8]) -> Vec<u8> {
    let mut old = table[..old_table_size(room(table.len()))].to_vec();
    old[FORM] = 0;
    old[SUM..HEADER_SIZE].fill(0);
    old
}

/// The firm and the symbol that a w of the scenes is for.
#[cfg(weighed)]
pub fn wanted() -> (Firm, Symbol) {
    (*FIRM, *STOCK)
}

/// Makes the side of a Modify S where it was T, and T where it was S.
fn change_side(_table: &mut [u8], modify: &mut [u8]) {
    modify[23] ^= b'S' ^ b'T';
}

/// Makes the intended size of a Cancel, which ends with it, one less.
fn lower_size(_table: &mut [u8], cancel: &mut [u8]) {
    let size = cancel.last_chunk_mut().expect("a Cancel has a size");
    *size = (u32::from_be_bytes(*size) - 1).to_be_bytes();
}

/// Makes the last order live again, with what is left of the most shares open, and counts it.
fn revive(table: &mut [u8], _purge: &mut [u8]) {
    let last = used(table).len() - 1;
    let record = HEADER_SIZE + RECORD_SIZE * last;
    table[record] = b'L';
    table[record + 16..record + 20].copy_from_slice(&MOST_SHARES.to_be_bytes());
    table[old_table_size(RECORDS) + last / 8] |= 1 << (last % 8);
    let header: &mut Header = table.first_chunk_mut().expect("a table has a header");
    let open = number(header, SUM) + OPEN;
    header[SUM..].copy_from_slice(&open.to_be_bytes());
}

/// A day in the making: a table that takes entries, and nothing is written into it by hand.
struct Day {
    table: Vec<u8>,
}

impl Day {
    /// One that is open, with so many records, these firms and no order yet.
    fn new(records: usize, firms: &[Firm]) -> Day {
        let mut table = vec![0; table_size(records)];
        assert_eq!(fresh(&mut table, 1_000_000, firms), 0);
        let mut day = Day { table };
        day.take(&[b"s".as_slice(), &STAMP, b"S"].concat());
        day
    }

    /// Takes an entry.
    fn take(&mut self, entry: &[u8]) {
        assert_eq!(answer(&mut self.table, entry), 0);
    }

    /// The same day after orders of these numbers, which are live and of the same shares.
    fn with_orders(mut self, orders: RangeInclusive<usize>, alike: Alike) -> Day {
        for order in orders {
            self.take(&enter(&token(order, alike), SHARES));
        }
        self
    }

    /// Takes an order that a w passes over. A late one takes part in a cross, as only those are late.
    fn take_one_to_pass_over(&mut self, token: &[u8; 14], reason: Passed) {
        let mut enter = enter(token, SHARES);
        match reason {
            Passed::OtherFirm => enter[44..48].copy_from_slice(OTHER_FIRM),
            Passed::OtherStock => enter[28..36].copy_from_slice(OTHER_STOCK),
            Passed::Late => enter[55] = b'C',
            Passed::Dead => (),
        }
        self.take(&enter);
        match reason {
            Passed::Late => self.take(&entry(b'l', token, &[])),
            Passed::Dead => self.take(&entry(b'X', token, &[&[0; 4]])),
            _ => (),
        }
    }

    /// The same day after an order of the most shares, some of which are spent.
    fn with_a_large_order(mut self, token: &[u8; 14]) -> Day {
        let (executed, self_matched) = (EXECUTED.to_be_bytes(), SELF_MATCHED.to_be_bytes());
        let execution: [&[u8]; 4] = [&executed, &PRICE, b"A", &[0; 8]];
        let self_match: [&[u8]; 4] = [&self_matched, &self_matched, &PRICE, b"A"];
        self.take(&enter(token, MOST_SHARES));
        self.take(&entry(b'e', token, &execution));
        self.take(&entry(b'q', token, &self_match));
        self
    }
}

/// What an entry is answered; its message is thrown away.
fn answer(table: &mut [u8], entry: &[u8]) -> u8 {
    let (mut at, mut held, mut stocks) = (0, 0, *BOTH_STOCKS);
    let told = step(table, &mut [0; 80], &mut at, &mut held, &mut stocks, entry);
    told.answer
}

fn token(order: usize, alike: Alike) -> [u8; 14] {
    let shared = "CLIENT000";
    let text = match alike {
        Alike::InFront => format!("{shared}{order:05}"),
        Alike::AtTheEnd => format!("{order:05}{shared}"),
    };
    text.as_bytes()
        .try_into()
        .expect("nine characters and five digits")
}

fn enter(token: &[u8; 14], shares: u32) -> Vec<u8> {
    let body: [&[u8]; 9] = [
        b"S",
        &shares.to_be_bytes(),
        STOCK,
        &PRICE,
        &99_999_u32.to_be_bytes(),
        FIRM,
        b"YPN",
        &[0; 4],
        b"N",
    ];
    entry(b'O', token, &body)
}

/// An entry about this token.
fn entry(kind: u8, token: &[u8; 14], body: &[&[u8]]) -> Vec<u8> {
    [&[kind], STAMP.as_slice(), token, &body.concat()].concat()
}

/// The longest list: names of capitals, far apart, of which every seventh is halted.
pub fn long_list() -> Vec<u8> {
    let letters: [u32; 3] = [26 * 26, 26, 1];
    let place = |number: u32| {
        let mut place = *b"   STOCKT";
        for (byte, letter) in place.iter_mut().zip(letters) {
            *byte = b'A' + (8 * number / letter % 26) as u8;
        }
        if number.is_multiple_of(7) {
            place[8] = b'H';
        }
        place
    };
    (0..2_000).flat_map(place).collect()
}

/// A legal message of each of the sixteen kinds, inbound ones first.
pub fn messages() -> Vec<(bool, Vec<u8>)> {
    let mut chance = Chance::new(1);
    let mut found: Vec<(bool, Vec<u8>)> = Vec::new();
    while found.len() < 16 {
        let (inbound, message) = message(&mut chance);
        let legal = echo(inbound, &message, &mut [0; 80]).answer == 0;
        let known = |(i, m): &(bool, Vec<u8>)| (*i, m[0]) == (inbound, message[0]);
        if legal && !found.iter().any(known) {
            found.push((inbound, message));
        }
    }
    found.sort_by_key(|(inbound, message)| (!inbound, message[0]));
    found
}

/// A Mass Cancel of the purge port and a client's Enter, and whether each is the port's.
pub fn requests() -> [(bool, Vec<u8>); 2] {
    let reference = 1_u32.to_be_bytes();
    let purge: [&[u8]; 6] = [b"M", &reference, FIRM, b"      ", STOCK, &[0; 2]];
    let mut enter = enter(&token(1, Alike::InFront), SHARES);
    enter.drain(1..9);
    [(true, purge.concat()), (false, enter)]
}

#[cfg(test)]
mod tests {
    use second::{Host, Outbox, Stocks};

    use super::{Alike, CALLS_A_RACE, FIRM, OPEN, Passed, RECORDS, SHARES, STOCK, Scene};
    use super::{enter, full_table, long_list, messages, old_form, requests, token};
    use crate::{counts, list, next, plain};

    /// A w's scenes, in all three of which its order is the last.
    fn to_purge(used: usize) -> [Scene; 3] {
        let reasons: [&[Passed]; 3] = [
            &Passed::FOR_ALL_REASONS,
            &Passed::THOUGH_LIVE,
            &Passed::AS_DEAD,
        ];
        reasons.map(|reasons| Scene::to_purge(used, reasons))
    }

    /// Offers a scene's entry to its table, and makes both ready for the next call.
    fn play(scene: &mut Scene) {
        let answer = super::answer(&mut scene.table, &scene.entry);
        assert_eq!(answer, scene.answer);
        (scene.next)(&mut scene.table, &mut scene.entry);
    }

    #[test]
    fn a_scene_is_sound_and_its_last_order_is_found() {
        for used in [1, 100, RECORDS] {
            let scenes = [
                Scene::new(used),
                Scene::to_cancel(used),
                Scene::purged(used),
            ];
            for scene in scenes.into_iter().chain(to_purge(used)) {
                assert!(plain::judge(&scene.table) && list::judge(&scene.stocks));
                assert_eq!(plain::find(&scene.table, &scene.token), Some(used - 1));
            }
        }
    }

    #[test]
    fn modifies_go_on_for_ever() {
        let mut scene = Scene::new(2);
        let first = (scene.table.clone(), scene.entry.clone());
        for _ in 0..3 {
            play(&mut scene);
            assert!(scene.table != first.0 && scene.entry != first.1);
            play(&mut scene);
            assert!((&scene.table, &scene.entry) == (&first.0, &first.1));
        }
    }

    #[test]
    fn cancels_go_on_all_through_a_race() {
        let mut scene = Scene::to_cancel(1);
        let mut host = Host::load(&scene.table).unwrap();
        let mut stocks = Stocks::over(&mut scene.stocks).unwrap();
        let mut outbox = Outbox::empty(80).unwrap();
        for _ in 0..CALLS_A_RACE {
            let told = host.offer(&mut outbox, &mut stocks, &scene.entry);
            assert_eq!((told.answer, outbox.held()), (0, 28));
            outbox.release(28);
            (scene.next)(&mut scene.table, &mut scene.entry);
        }
        assert_eq!(host.image()[64], b'L');
    }

    #[test]
    fn purges_go_on_for_ever() {
        for used in [1, 2, 3, 4, 5, RECORDS] {
            for mut scene in to_purge(used).into_iter().chain([Scene::purged(used)]) {
                let first = scene.clone();
                for _ in 0..3 {
                    play(&mut scene);
                    assert!((&scene.table, &scene.entry) == (&first.table, &first.entry));
                }
            }
        }
    }

    #[test]
    fn a_purge_ends_the_last_order_alone() {
        for used in [1, 2, 3, 4, 5, RECORDS] {
            let [before, ..] = to_purge(used);
            let after = Scene::purged(used);
            let last = 64 + 80 * (used - 1);
            // All but the sum, which is the header's end.
            assert!(before.table[..60] == after.table[..60]);
            assert!(before.table[64..last] == after.table[64..last]);
            assert_eq!((before.table[last], after.table[last]), (b'L', b'D'));
            let [before, after] = [before, after].map(|scene| counts::walking(&scene.table));
            assert_eq!(before.live, after.live + 1);
            assert_eq!(before.open, after.open + OPEN as usize);
        }
    }

    #[test]
    fn a_purge_finds_the_last_order_among_all_dead_ones_and_all_live_ones() {
        let [_, live, dead] = to_purge(RECORDS);
        for (scene, lives) in [(live, RECORDS), (dead, 1)] {
            assert_eq!(counts::walking(&scene.table).live, lives);
            let place = next::walking(&scene.table, FIRM, STOCK);
            assert_eq!(place, Some(RECORDS - 1));
        }
    }

    #[test]
    fn a_full_table_is_sound_in_both_forms() {
        for records in [1, 8, 9, 100, RECORDS] {
            let table = full_table(records);
            assert!(plain::judge(&table) && counts::walking(&table).live == records);
            let mut rebuilt = vec![0; table.len()];
            assert_eq!(counts::convert(&old_form(&table), &mut rebuilt), 0);
            assert!(rebuilt == table);
        }
    }

    #[test]
    fn a_purge_passes_over_orders_for_one_reason_each() {
        let [Scene { table, .. }, ..] = to_purge(RECORDS);
        let mut passed = [0; 4];
        for record in &plain::used(&table)[..RECORDS - 1] {
            let reasons = [
                record[0] == b'D',
                record[64] == 1,
                record[44..48] != *FIRM,
                record[28..36] != *STOCK,
            ];
            let reasons = reasons.map(u32::from);
            assert_eq!(reasons.iter().sum::<u32>(), 1);
            passed
                .iter_mut()
                .zip(reasons)
                .for_each(|(times, so)| *times += so);
        }
        assert_eq!(passed, [199, 200, 200, 200]);
    }

    #[test]
    fn tokens_are_alike_where_they_should_be() {
        for (alike, shared) in [(Alike::InFront, 0..9), (Alike::AtTheEnd, 5..14)] {
            let Scene { table, token, .. } = Scene::of(RECORDS, alike);
            let tokens = plain::used(&table).iter().map(|row| &row[1..15]);
            assert!(
                tokens
                    .clone()
                    .all(|other| other[shared.clone()] == token[shared.clone()])
            );
            let distinct: std::collections::BTreeSet<&[u8]> = tokens.collect();
            assert_eq!(distinct.len(), RECORDS);
        }
    }

    #[test]
    fn the_longest_list_is_good() {
        let list = long_list();
        assert!(list.len() == 18_000 && list::judge(&list));
    }

    #[test]
    fn there_is_a_message_of_each_kind() {
        let kinds: Vec<u8> = messages().iter().map(|(_, message)| message[0]).collect();
        assert_eq!(kinds, b"MOUXABCDEIJMPSTU");
    }

    #[test]
    fn requests_become_entries_of_a_scene() {
        let enter = enter(&token(1, Alike::InFront), SHARES);
        let purge = Scene::to_purge(1, &Passed::AS_DEAD).entry;
        let entries = [purge, enter];
        for ((purge, message), right) in requests().into_iter().zip(entries) {
            let mut entry = vec![0; right.len()];
            assert_eq!(second::entry(purge, 1, &message, &mut entry).answer, 0);
            assert_eq!(entry, right);
        }
    }
}
