//! What a call answers, under the core's names, and with a bad field where it is bad.

use std::error::Error;
use std::fmt::{self, Display, Formatter};

use crate::Status;

/// An answer. It prints as the paper's number and what that means: `9: blocked`, or
/// `3: bad byte at 24` where a byte of an entry or a message was bad.
///
/// ```
/// use pilaqsevi::Answer;
///
/// let answer = Answer::BadField { place: 24 };
/// assert_eq!((answer.number(), answer.place()), (3, 24));
/// assert_eq!(answer.to_string(), "3: bad byte at 24");
/// ```
#[derive(Clone, Copy, Debug, PartialEq, Eq, Hash)]
#[must_use]
pub enum Answer {
    /// The only answer that changes anything.
    Done,
    /// The rules ignore the entry; of a w, no order is left to cancel.
    Ignored,
    /// An unknown kind or type, or a length that isn't its.
    Malformed,
    /// A bad stamp, token or letter, a bad price of p, or an account or an appendage in a request of
    /// the purge port. Of several bad fields the first is told.
    BadField {
        /// The offset of the bad byte, the kind or type being byte 0: the field's first one or, in a
        /// token, the first character that no token has.
        place: usize,
    },
    /// The stamp is below the last one.
    TooEarly,
    /// The token isn't live or, of a halt, the symbol isn't listed.
    NotLive,
    /// Shares are 0 or above what is open.
    WrongShares,
    /// The wrong moment for this entry.
    WrongMoment,
    /// No record is free, or no reference is left.
    Full,
    /// The message is longer than what is free in the ring. The entry may be offered again once
    /// bytes were released, and comes to the same.
    Blocked,
    /// The table isn't sound; of a conversion, it isn't in its old form.
    NotSound,
    /// The ring's length or its marks are wrong.
    WrongRing,
    /// More was to be released than is held.
    NotHeld,
    /// The buffer is too short for the echo's message or for the entry that is made, or hasn't exactly
    /// the length of the rebuilt table.
    NoRoom,
    /// The list of stocks is too long, not of whole places, not ascending or has another state.
    WrongStocks,
    /// The firm of a w, d or n isn't listed.
    UnlistedFirm,
    /// Number 3 as well: a bad threshold or bad firms. Only a fresh table has settings, and they have
    /// no place. It stands last so that the others' order is their numbers'.
    BadSettings,
}

impl Answer {
    /// The paper's number.
    #[inline]
    pub fn number(self) -> u8 {
        match self {
            Answer::Done => 0,
            Answer::Ignored => 1,
            Answer::Malformed => 2,
            Answer::BadField { .. } | Answer::BadSettings => 3,
            Answer::TooEarly => 4,
            Answer::NotLive => 5,
            Answer::WrongShares => 6,
            Answer::WrongMoment => 7,
            Answer::Full => 8,
            Answer::Blocked => 9,
            Answer::NotSound => 10,
            Answer::WrongRing => 11,
            Answer::NotHeld => 12,
            Answer::NoRoom => 13,
            Answer::WrongStocks => 14,
            Answer::UnlistedFirm => 15,
        }
    }

    /// The paper's place: the bad byte's offset with [`Answer::BadField`], and 0 with any other.
    #[inline]
    pub fn place(self) -> usize {
        match self {
            Answer::BadField { place } => place,
            _ => 0,
        }
    }

    /// The answer of a call that has no place to tell.
    #[inline]
    pub(crate) fn of(number: u8) -> Answer {
        match number {
            // By itself: a caller that goes on where all is done then asks for one number only.
            0 => Answer::Done,
            _ => Answer::refused(number),
        }
    }

    /// The other ones. The proved functions give these numbers only, so that another one means that
    /// some other archive was linked.
    fn refused(number: u8) -> Answer {
        match number {
            1 => Answer::Ignored,
            2 => Answer::Malformed,
            3 => Answer::BadSettings,
            4 => Answer::TooEarly,
            5 => Answer::NotLive,
            6 => Answer::WrongShares,
            7 => Answer::WrongMoment,
            8 => Answer::Full,
            9 => Answer::Blocked,
            10 => Answer::NotSound,
            11 => Answer::WrongRing,
            12 => Answer::NotHeld,
            13 => Answer::NoRoom,
            14 => Answer::WrongStocks,
            15 => Answer::UnlistedFirm,
            _ => no_answer(number, "at 0"),
        }
    }

    /// The answer of a status. Both numbers are 0 where it is refused: others beside a refusal aren't
    /// dropped, since they mean that some other archive was linked.
    #[inline]
    pub(crate) fn beside(number: u8, status: Status) -> Answer {
        match (number, status) {
            (0, _) => Answer::Done,
            (_, Status { live: 0, open: 0 }) => Answer::refused(number),
            (_, Status { live, open }) => {
                no_answer(number, format_args!("with {live} live and {open} open"))
            }
        }
    }

    /// The answer of a step, an echo or the making of an entry. Only 3 comes with a place: one beside
    /// another number isn't dropped, since it, too, means that some other archive was linked.
    #[inline]
    pub(crate) fn at(number: u8, place: usize) -> Answer {
        match (number, place) {
            (0, 0) => Answer::Done,
            _ => Answer::refused_at(number, place),
        }
    }

    /// The other ones, apart, so that a caller that goes on where all is done has little to ask.
    #[cold]
    fn refused_at(number: u8, place: usize) -> Answer {
        match (number, place) {
            (3, place) => Answer::BadField { place },
            (number, 0) => Answer::of(number),
            _ => no_answer(number, format_args!("at {place}")),
        }
    }

    /// What the number means.
    fn meaning(self) -> &'static str {
        match self {
            Answer::Done => "done",
            Answer::Ignored => "ignored",
            Answer::Malformed => "unknown kind or wrong length",
            Answer::BadField { .. } => "bad byte",
            Answer::BadSettings => "bad setting",
            Answer::TooEarly => "stamp below the last",
            Answer::NotLive => "token not live or symbol not listed",
            Answer::WrongShares => "shares 0 or above open",
            Answer::WrongMoment => "wrong moment",
            Answer::Full => "no record or reference left",
            Answer::Blocked => "blocked",
            Answer::NotSound => "table not sound",
            Answer::WrongRing => "wrong ring length or marks",
            Answer::NotHeld => "more than is held",
            Answer::NoRoom => "buffer too short or of a wrong length",
            Answer::WrongStocks => "list of stocks wrong",
            Answer::UnlistedFirm => "firm not listed",
        }
    }
}

impl Display for Answer {
    fn fmt(&self, f: &mut Formatter) -> fmt::Result {
        write!(f, "{}: {}", self.number(), self.meaning())?;
        match self {
            Answer::BadField { place } => write!(f, " at {place}"),
            _ => Ok(()),
        }
    }
}

/// So that `?` hands on what is wrong with a [`Desk`](crate::Desk), whatever a program's own errors.
impl Error for Answer {}

#[cold]
fn no_answer(number: u8, told: impl Display) -> ! {
    panic!("the archive answered {number} {told}, which is no answer")
}

#[cfg(test)]
mod tests {
    use super::Answer;
    use crate::Status;

    #[test]
    fn each_answer_is_the_answer_of_its_number() {
        for number in 0..16 {
            assert_eq!(Answer::of(number).number(), number);
            assert_eq!(Answer::of(number).place(), 0);
            assert_eq!(Answer::at(number, 0).number(), number);
            assert_eq!(Answer::at(number, 0).place(), 0);
        }
    }

    #[test]
    fn a_bad_field_has_a_place_and_bad_settings_have_none() {
        let bad = Answer::at(3, 24);
        assert_eq!(bad, Answer::BadField { place: 24 });
        assert_eq!((bad.number(), bad.place()), (3, 24));
        assert_eq!(Answer::of(3), Answer::BadSettings);
    }

    #[test]
    fn an_answer_prints_its_number_and_what_it_means() {
        for (answer, printed) in [
            (Answer::at(3, 24), "3: bad byte at 24"),
            (Answer::of(3), "3: bad setting"),
            (Answer::at(0, 0), "0: done"),
            (Answer::at(2, 0), "2: unknown kind or wrong length"),
            (Answer::at(9, 0), "9: blocked"),
            (Answer::of(12), "12: more than is held"),
            (Answer::of(13), "13: buffer too short or of a wrong length"),
            (Answer::at(14, 0), "14: list of stocks wrong"),
            (Answer::at(15, 0), "15: firm not listed"),
        ] {
            assert_eq!(answer.to_string(), printed);
        }
    }

    #[test]
    fn a_refused_status_has_no_numbers() {
        let (none, some) = (Status::default(), Status { live: 2, open: 0 });
        assert_eq!(Answer::beside(10, none), Answer::NotSound);
        assert_eq!(Answer::beside(0, none), Answer::Done);
        assert_eq!(Answer::beside(0, some), Answer::Done);
    }

    #[test]
    #[should_panic(expected = "answered 10 with 2 live and 0 open")]
    fn no_refused_status_has_any() {
        let _ = Answer::beside(10, Status { live: 2, open: 0 });
    }

    #[test]
    #[should_panic(expected = "answered 16 at 0")]
    fn no_answer_has_a_higher_number() {
        let _ = Answer::of(16);
    }

    #[test]
    #[should_panic(expected = "answered 9 at 24")]
    fn no_other_answer_has_a_place() {
        let _ = Answer::at(9, 24);
    }
}
