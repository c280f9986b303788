//! The paper's answers under names, and what a call tells of one: its number and a place.

/// An answer. A bad field knows where its first bad byte is; no other answer has a place to tell.
#[derive(Clone, Copy, Debug, PartialEq, Eq)]
pub enum Answer {
    Done,
    Ignored,
    WrongKindOrLength,
    /// 3 from an entry or a message, with the offset of the first bad byte.
    BadField(usize),
    /// 3 from the fresh call, whose settings are no entry and have no bytes to count.
    BadSettings,
    StampBelowLast,
    NotLive,
    /// 5 as well: the symbol of h isn't on the list.
    NotListed,
    WrongShares,
    WrongMoment,
    NothingFree,
    NoRoom,
    TableNotSound,
    WrongMarks,
    ReleaseAboveHeld,
    BufferTooShort,
    /// 13 as well: the converter's second buffer hasn't exactly the new length.
    WrongBufferLength,
    WrongStocks,
    FirmNotListed,
}

impl Answer {
    /// The paper's number.
    pub fn number(self) -> u8 {
        match self {
            Answer::Done => 0,
            Answer::Ignored => 1,
            Answer::WrongKindOrLength => 2,
            Answer::BadField(_) | Answer::BadSettings => 3,
            Answer::StampBelowLast => 4,
            Answer::NotLive | Answer::NotListed => 5,
            Answer::WrongShares => 6,
            Answer::WrongMoment => 7,
            Answer::NothingFree => 8,
            Answer::NoRoom => 9,
            Answer::TableNotSound => 10,
            Answer::WrongMarks => 11,
            Answer::ReleaseAboveHeld => 12,
            Answer::BufferTooShort | Answer::WrongBufferLength => 13,
            Answer::WrongStocks => 14,
            Answer::FirmNotListed => 15,
        }
    }

    /// The number and the place.
    pub fn told(self) -> Told {
        let place = match self {
            Answer::BadField(place) => place,
            _ => 0,
        };
        Told {
            answer: self.number(),
            place,
        }
    }

    /// The answer of a result: done where all went well.
    pub(crate) fn of(result: Result<(), Answer>) -> Answer {
        result.err().unwrap_or(Answer::Done)
    }

    /// The answer to bytes that so many others were put before: a place moves on, and nothing else.
    pub(crate) fn moved_by(self, bytes: usize) -> Answer {
        match self {
            Answer::BadField(place) => Answer::BadField(place + bytes),
            other => other,
        }
    }
}

/// What a step, an echo or the making of an entry tells.
#[derive(Clone, Copy, Debug, PartialEq, Eq)]
pub struct Told {
    /// The paper's number.
    pub answer: u8,
    /// With 3 the smallest offset of a bad byte, counted from the kind or type; otherwise 0.
    pub place: usize,
}

/// What the status call tells: the number, and with 0 what the table says of its orders.
#[derive(Clone, Copy, Debug, PartialEq, Eq)]
pub struct Status {
    /// The paper's number.
    pub answer: u8,
    /// How many orders are live.
    pub live: usize,
    /// The open shares of all of them.
    pub open: usize,
}
