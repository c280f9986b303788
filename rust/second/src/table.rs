//! The table's forms, its length and its header: the day, the settings, the blocks and the counters in
//! 64 bytes.

use crate::bits;
use crate::blocks::Blocks;
use crate::field::{Field, Stamp, capitals_then_spaces};
use crate::order::RECORD_LEN;
use crate::shares::Open;

/// The header's bytes.
pub const HEADER_LEN: usize = 64;
/// The most records of a table.
const MOST_RECORDS: usize = 800;
/// The next reference is at most this, and a table that has come so far can give none.
pub const LAST_REFERENCE: u64 = 1_000_000_000_000_000_000;
/// The highest threshold.
const HIGHEST_THRESHOLD: u32 = 1_000_000;
/// Places for firms, and where they begin and end.
const MOST_FIRMS: usize = 8;
const FIRM_LEN: usize = 4;
const FIRMS_AT: usize = 28;
const FIRMS_END: usize = FIRMS_AT + MOST_FIRMS * FIRM_LEN;
/// Where the form, the firms' blocks and the sum of open shares stand.
const FORM_AT: usize = 2;
const BLOCKS_AT: usize = 3;
const OPEN_AT: usize = FIRMS_END;

/// A firm code.
pub type Firm = [u8; FIRM_LEN];

/// A form of the table, by its number in the header. A step knows the second only, and the converter
/// makes it of the first.
#[derive(Clone, Copy, Debug, PartialEq, Eq)]
#[repr(u8)]
pub enum Form {
    /// Header and records, and nothing that could be counted instead.
    Bare = 0,
    /// With the sum of open shares in the header, and a bit for each record behind the last.
    Counted = 1,
}

impl Form {
    /// The form whose header has this byte at its place.
    fn of(byte: u8) -> Option<Form> {
        [Form::Bare, Form::Counted]
            .into_iter()
            .find(|&form| form as u8 == byte)
    }

    /// How many bytes a table of so many records has.
    pub fn table_len(self, records: usize) -> usize {
        let bits = match self {
            Form::Bare => 0,
            Form::Counted => bits::bytes_for(records),
        };
        HEADER_LEN + RECORD_LEN * records + bits
    }

    /// How many records a table of this many bytes has, or nothing where the length is wrong. Each
    /// number is tried, so that this hangs on no division.
    pub fn record_count(self, table_len: usize) -> Option<usize> {
        (1..=MOST_RECORDS).find(|&records| self.table_len(records) == table_len)
    }
}

/// The part of the day.
#[derive(Clone, Copy, Debug, PartialEq, Eq)]
#[repr(u8)]
pub enum Day {
    Before = 0,
    Open = 1,
    Closed = 2,
}

impl Day {
    fn of(byte: u8) -> Option<Day> {
        [Day::Before, Day::Open, Day::Closed]
            .into_iter()
            .find(|&day| day as u8 == byte)
    }
}

/// Threshold and firms, legal; the first firm is the default.
#[derive(Clone, Debug, PartialEq, Eq)]
pub struct Settings {
    pub threshold: u32,
    pub firms: Vec<Firm>,
}

impl Settings {
    /// The settings, or nothing where one is bad.
    pub fn of(threshold: u32, firms: &[Firm]) -> Option<Settings> {
        let good = (1..=HIGHEST_THRESHOLD).contains(&threshold)
            && (1..=MOST_FIRMS).contains(&firms.len())
            && firms.iter().all(|firm| capitals_then_spaces(firm));
        good.then(|| Settings {
            threshold,
            firms: firms.to_vec(),
        })
    }

    /// The firm that an order's field means: a blank one is the default. It may be unlisted.
    pub fn meant_by(&self, firm: Firm) -> Firm {
        if firm == [b' '; FIRM_LEN] {
            self.firms[0]
        } else {
            firm
        }
    }

    /// The first place of a firm, or nothing where it isn't listed, as a blank one never is.
    pub fn place_of(&self, firm: Firm) -> Option<usize> {
        self.firms.iter().position(|&listed| listed == firm)
    }
}

/// The header without what the host's own rows give: the count of used ones and their open shares.
#[derive(Clone, Debug, PartialEq, Eq)]
pub struct Header {
    pub day: Day,
    pub last_stamp: Stamp,
    pub next_reference: u64,
    pub settings: Settings,
    pub blocks: Blocks,
}

impl Header {
    /// The header of a fresh table.
    pub fn fresh(settings: Settings) -> Header {
        Header {
            day: Day::Before,
            last_stamp: Stamp(0),
            next_reference: 1,
            settings,
            blocks: Blocks::default(),
        }
    }

    /// Whether a firm's new orders are blocked; those of an unlisted one have no bit.
    pub fn blocked(&self, firm: Firm) -> bool {
        let place = self.settings.place_of(firm);
        place.is_some_and(|place| self.blocks.at(place))
    }

    /// The header of 64 bytes and what it claims, or nothing where it isn't sound. Whether the claims
    /// are true is for the caller to judge.
    pub fn read(bytes: &[u8]) -> Option<(Header, Claims)> {
        let claims = Claims {
            form: Form::of(bytes[FORM_AT])?,
            used: usize::try_from(u32::get(&bytes[4..8])).ok()?,
            open: Open::get(&bytes[OPEN_AT..HEADER_LEN]),
        };
        let settings = read_settings(bytes)?;
        let header = Header {
            day: Day::of(bytes[0])?,
            last_stamp: Stamp::get(&bytes[8..16]),
            next_reference: u64::get(&bytes[16..24]),
            blocks: Blocks::of(bytes[BLOCKS_AT], settings.firms.len())?,
            settings,
        };
        let good =
            header.last_stamp.good() && (1..=LAST_REFERENCE).contains(&header.next_reference);
        good.then_some((header, claims))
    }

    /// Writes the header over 64 bytes.
    pub fn write(&self, claims: Claims, out: &mut [u8]) {
        out.fill(0);
        out[0] = self.day as u8;
        // At most 8 firms and 800 records, so neither number is cut.
        out[1] = self.settings.firms.len() as u8;
        out[FORM_AT] = claims.form as u8;
        out[BLOCKS_AT] = self.blocks.byte();
        (claims.used as u32).put(&mut out[4..8]);
        self.last_stamp.put(&mut out[8..16]);
        self.next_reference.put(&mut out[16..24]);
        self.settings.threshold.put(&mut out[24..28]);
        let places = out[FIRMS_AT..FIRMS_END].chunks_exact_mut(FIRM_LEN);
        for (place, firm) in places.zip(&self.settings.firms) {
            firm.put(place);
        }
        claims.open.put(&mut out[OPEN_AT..HEADER_LEN]);
    }
}

/// What a header says of the rest of its table: the form, the used records and their open shares.
#[derive(Clone, Copy, Debug, PartialEq, Eq)]
pub struct Claims {
    pub form: Form,
    pub used: usize,
    pub open: Open,
}

/// What the status call looks at, in any bytes of a right length: the form's byte and the sum.
pub fn claimed_open(header: &[u8]) -> Option<Open> {
    let counted = Form::of(header[FORM_AT]) == Some(Form::Counted);
    counted.then(|| Open::get(&header[OPEN_AT..HEADER_LEN]))
}

/// The settings of a header; the firm places past the count must be zero.
fn read_settings(bytes: &[u8]) -> Option<Settings> {
    let count = usize::from(bytes[1]);
    let places: Vec<Firm> = bytes[FIRMS_AT..FIRMS_END]
        .chunks_exact(FIRM_LEN)
        .map(Field::get)
        .collect();
    let firms = places.get(..count)?;
    if places[count..].iter().any(|&place| place != [0; FIRM_LEN]) {
        return None;
    }
    Settings::of(u32::get(&bytes[24..28]), firms)
}
