//! Seeded random tapes: entries that mostly make sense against the table and the list of stocks as
//! they stand.
//!
//! The makers below write bytes by the paper's tables and not by this host's layouts, so that a
//! wrong layout shows. Nothing here judges; a maker may look at any bytes, sound or not.

mod chance;
pub mod counts;
pub mod damage;
mod from_book;
mod from_client;
mod from_port;
pub mod judged;
mod lists;
mod look;
mod made;
mod messages;
mod requests;
mod tokens;
mod values;

pub use chance::Chance;
pub use lists::good_list;
pub use made::{settings, sound_table};
pub use messages::message;
pub use requests::request;

use look::Look;

/// How many of the last entries are kept for sending again.
const KEPT: usize = 64;

/// A source of entries; the same seed over the same tables gives the same entries.
#[derive(Clone, Debug)]
pub struct Tapes {
    chance: Chance,
    past: Vec<Vec<u8>>,
    /// The day is closed about once in so many entries; some tapes never close.
    closes_once_in: u64,
    /// Whether the last entry was a w that had an order to take. Such a one mostly comes again, until
    /// none is left and it is ignored.
    purging: bool,
}

impl Tapes {
    /// A source of entries.
    pub fn new(seed: u64) -> Tapes {
        let mut chance = Chance::new(seed);
        let closes_once_in = chance.pick(&[150, 400, 2_000, u64::MAX]);
        Tapes {
            chance,
            past: Vec::new(),
            closes_once_in,
            purging: false,
        }
    }

    /// The next entry, for a host whose table and list of stocks have these bytes.
    pub fn entry(&mut self, table: &[u8], stocks: &[u8]) -> Vec<u8> {
        let look = Look::at(table, stocks);
        let purges_on = self.purging && !self.chance.one_in(4);
        let entry = match self.chance.below(100) {
            _ if purges_on => self.sent_again_now(&look, true),
            0..=3 => self.sent_again(&look, false),
            4..=8 => self.sent_again_now(&look, false),
            9..=17 => {
                let whole = self.sensible(&look);
                damage::misread(&mut self.chance, whole)
            }
            _ => self.sensible(&look),
        };
        self.purging = from_port::is_purge(&entry) && !look.purged_by(&entry).is_empty();
        self.past.push(entry.clone());
        if self.past.len() > KEPT {
            self.past.remove(0);
        }
        entry
    }

    /// An earlier entry byte for byte; the last one where that is wanted, and often anyway, since its
    /// stamp isn't yet too low.
    fn sent_again(&mut self, look: &Look, latest: bool) -> Vec<u8> {
        let latest = latest || self.chance.one_in(2);
        let any = self.chance.choose(&self.past);
        let again = if latest { self.past.last() } else { any };
        match again.cloned() {
            Some(entry) => entry,
            None => self.sensible(look),
        }
    }

    /// An earlier entry with a stamp of now, so that it comes to more than answer 4.
    fn sent_again_now(&mut self, look: &Look, latest: bool) -> Vec<u8> {
        let stamp = values::stamp(&mut self.chance, look);
        let mut entry = self.sent_again(look, latest);
        if let Some(place) = entry.get_mut(1..9) {
            place.copy_from_slice(&stamp.to_be_bytes());
        }
        entry
    }

    /// An entry that fits the day and, mostly, some order of the table.
    fn sensible(&mut self, look: &Look) -> Vec<u8> {
        let wants_start = look.day() == 0 && self.chance.one_in(3);
        let wants_end = look.day() == 1 && self.chance.one_in(self.closes_once_in);
        let chance = &mut self.chance;
        if wants_start || wants_end || chance.one_in(120) {
            return from_book::system(chance, look);
        }
        chance.weighted(&makers(look))(chance, look)
    }
}

/// How often each kind is made for a table and a list that look so.
fn makers(look: &Look) -> [(u64, Maker); 14] {
    let either = |is_so: bool, one: u64, other: u64| if is_so { one } else { other };
    // Few orders mean many Enters, so that the other kinds find something to act on; a full table or
    // a day that isn't open means few, since they are only answered with 8 or rejected there.
    let enters = match (look.full(), look.day(), look.live().len()) {
        (true, _, _) => 4,
        (false, 1, 0..=3) => 60,
        _ => 20,
    };
    // What self-matched shares count for shows in Cancels, and orders that have some are few.
    let cancels = either(look.live_and_self_matched().is_empty(), 16, 48);
    // A Replace seldom finds its order's stock halted, so there are more where it would.
    let replaces = either(look.live_and_halted().is_empty(), 24, 48);
    // A w is ignored where nothing is live, and ends what the other kinds would act on.
    let purges = either(look.live().is_empty(), 1, 8);
    // A blocked firm's orders only fill the table, so that it is let in again before long.
    let enables = either(look.blocked_firms().is_empty(), 2, 14);
    [
        (enters, from_client::enter),
        (replaces, from_client::replace),
        (cancels, from_client::cancel),
        (10, from_client::modify),
        (12, from_book::execution),
        (7, from_book::book_cancel),
        (10, from_book::self_match),
        (4, from_book::priority),
        (7, from_book::late_begins),
        (6, from_book::cross_done),
        (8, from_book::halt),
        (purges, from_port::mass_cancel),
        (4, from_port::disable),
        (enables, from_port::enable),
    ]
}

/// Whether little can happen to this table any more: nothing is live, and no order can be entered
/// since the day is closed or no record is free. A driver then takes another table.
pub fn worn_out(table: &[u8]) -> bool {
    let look = Look::at(table, &[]);
    look.live().is_empty() && (look.day() == 2 || look.full())
}

/// Makes the bytes of one entry.
type Maker = fn(&mut Chance, &Look) -> Vec<u8>;
