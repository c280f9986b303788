//! A look at the bytes of a table and of a list of stocks, good or not, by the paper's offsets.

use super::counts;

/// The bytes and how many records they can show.
pub struct Look<'a> {
    table: &'a [u8],
    stocks: &'a [u8],
    room: usize,
    used: usize,
}

impl<'a> Look<'a> {
    /// Looks at any bytes; what isn't there reads as zero.
    pub fn at(table: &'a [u8], stocks: &'a [u8]) -> Look<'a> {
        let room = counts::room(table.len());
        let claimed = number(table, 4, 4) as usize;
        Look {
            table,
            stocks,
            room,
            used: claimed.min(room),
        }
    }

    pub fn day(&self) -> u8 {
        number(self.table, 0, 1) as u8
    }

    pub fn last_stamp(&self) -> u64 {
        number(self.table, 8, 8)
    }

    pub fn threshold(&self) -> u32 {
        number(self.table, 24, 4) as u32
    }

    /// The listed firms.
    pub fn firms(&self) -> Vec<[u8; 4]> {
        let count = number(self.table, 1, 1).min(8) as usize;
        (0..count)
            .map(|place| bytes(self.table, 28 + 4 * place))
            .collect()
    }

    /// Those of them whose new orders are blocked, each by its first place.
    pub fn blocked_firms(&self) -> Vec<[u8; 4]> {
        let (firms, bits) = (self.firms(), number(self.table, 3, 1));
        let first = |place: usize| firms.iter().position(|firm| *firm == firms[place]);
        let places = 0..firms.len();
        let blocked = places.filter(|&place| first(place) == Some(place) && bits >> place & 1 == 1);
        blocked.map(|place| firms[place]).collect()
    }

    /// The listed symbols and their states.
    pub fn stocks(&self) -> Vec<([u8; 8], u8)> {
        let places = self.stocks.chunks_exact(9);
        places.map(|place| (bytes(place, 0), place[8])).collect()
    }

    /// Those of them in this state.
    pub fn stocks_in(&self, state: u8) -> Vec<[u8; 8]> {
        let mut stocks = self.stocks();
        stocks.retain(|&(_, its)| its == state);
        stocks.into_iter().map(|(symbol, _)| symbol).collect()
    }

    /// Whether no record is free.
    pub fn full(&self) -> bool {
        self.used == self.room
    }

    /// The used records.
    pub fn records(&self) -> Vec<Row<'a>> {
        let rows = self.table.get(64..).unwrap_or(&[]).chunks_exact(80);
        rows.take(self.used).map(Row).collect()
    }

    /// The records in state L.
    pub fn live(&self) -> Vec<Row<'a>> {
        let mut rows = self.records();
        rows.retain(|row| row.0[0] == b'L');
        rows
    }

    /// Those of them that have self-matched shares.
    pub fn live_and_self_matched(&self) -> Vec<Row<'a>> {
        let mut rows = self.live();
        rows.retain(|row| row.self_matched() > 0);
        rows
    }

    /// Those of the live ones that this w cancels, one after the other.
    pub fn purged_by(&self, w: &[u8]) -> Vec<Row<'a>> {
        let (firm, symbol) = (bytes(w, 9), bytes(w, 13));
        let mut rows = self.live();
        rows.retain(|row| row.firm() == firm && !row.late());
        rows.retain(|row| symbol == *b"        " || row.stock() == symbol);
        rows
    }

    /// Those of the live ones whose stock is halted.
    pub fn live_and_halted(&self) -> Vec<Row<'a>> {
        let halted = self.stocks_in(b'H');
        let mut rows = self.live();
        rows.retain(|row| halted.contains(&row.stock()));
        rows
    }
}

/// One record's 80 bytes.
#[derive(Clone, Copy)]
pub struct Row<'a>(&'a [u8]);

impl Row<'_> {
    pub fn token(self) -> [u8; 14] {
        bytes(self.0, 1)
    }

    pub fn side(self) -> u8 {
        self.0[15]
    }

    pub fn liable(self) -> u32 {
        number(self.0, 16, 4) as u32
    }

    pub fn executed(self) -> u32 {
        number(self.0, 20, 4) as u32
    }

    pub fn self_matched(self) -> u32 {
        number(self.0, 24, 4) as u32
    }

    /// Executed + self-matched.
    pub fn spent(self) -> u32 {
        self.executed().saturating_add(self.self_matched())
    }

    pub fn open(self) -> u32 {
        self.liable().saturating_sub(self.spent())
    }

    pub fn stock(self) -> [u8; 8] {
        bytes(self.0, 28)
    }

    pub fn firm(self) -> [u8; 4] {
        bytes(self.0, 44)
    }

    pub fn in_cross(self) -> bool {
        self.0[55] != b'N'
    }

    pub fn late(self) -> bool {
        self.0[64] & 1 != 0
    }
}

/// The number of so many bytes, or 0 where they aren't all there.
pub fn number(from: &[u8], at: usize, len: usize) -> u64 {
    let place = from.get(at..at + len).unwrap_or(&[]);
    place
        .iter()
        .fold(0, |number, &byte| number << 8 | u64::from(byte))
}

/// N bytes, or zeros where they aren't all there.
fn bytes<const N: usize>(from: &[u8], at: usize) -> [u8; N] {
    let place = from.get(at..at + N);
    place
        .and_then(|place| place.try_into().ok())
        .unwrap_or([0; N])
}
