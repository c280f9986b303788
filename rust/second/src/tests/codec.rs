//! The sixteen messages: lengths, what is judged, what is carried, and the room they need.

use super::kit::{first_bad, told_at};
use crate::field::{Side, Stamp, Token};
use crate::messages::*;
use crate::port::{DisableRequest, EnableRequest, MassCancelRequest};
use crate::shares::{Removed, Total};
use crate::tapes::judged::{Field, Judged, of_message, places};
use crate::{Answer, Fields, Message, Told, echo};

/// Whether inbound, type, and length.
struct Shape {
    inbound: bool,
    kind: u8,
    len: usize,
}

const SHAPES: [Shape; 16] = [
    shape(true, b'O', 48),
    shape(true, b'U', 47),
    shape(true, b'X', 19),
    shape(true, b'M', 20),
    shape(false, b'S', 10),
    shape(false, b'A', 66),
    shape(false, b'U', 80),
    shape(false, b'C', 28),
    shape(false, b'D', 37),
    shape(false, b'E', 40),
    shape(false, b'B', 32),
    shape(false, b'J', 24),
    shape(false, b'P', 23),
    shape(false, b'I', 23),
    shape(false, b'T', 36),
    shape(false, b'M', 28),
];

const fn shape(inbound: bool, kind: u8, len: usize) -> Shape {
    Shape { inbound, kind, len }
}

impl Shape {
    fn fields(&self) -> &'static [Field] {
        of_message(self.inbound, self.kind)
    }

    /// A legal message whose carried bytes are all different from zero.
    fn message(&self) -> Vec<u8> {
        let mut message: Vec<u8> = (0..self.len).map(|place| 0x80 | place as u8).collect();
        message[0] = self.kind;
        for &(at, judged) in self.fields() {
            match judged {
                Judged::Stamp => {
                    message[at..at + 8].copy_from_slice(&86_399_999_999_999_u64.to_be_bytes());
                }
                Judged::Token => message[at..at + 14].copy_from_slice(b"Az 09 aZ  zA1 "),
                Judged::Letter(legal) => message[at] = legal[0],
                Judged::Price | Judged::Blank | Judged::Zero => {
                    unreachable!("no message of OUCH has one that is judged")
                }
            }
        }
        message
    }

    fn echo(&self, message: &[u8]) -> Told {
        echo(self.inbound, message, &mut [0; 80])
    }
}

#[test]
fn each_message_comes_back_and_bytes_after_it_stay() {
    for shape in &SHAPES {
        let message = shape.message();
        let mut out = vec![0x55; 100];
        assert_eq!(echo(shape.inbound, &message, &mut out), told_at(None));
        assert_eq!(
            out,
            [message.as_slice(), &vec![0x55; 100 - shape.len]].concat()
        );
    }
}

#[test]
fn every_byte_of_every_message_is_judged_or_carried() {
    for shape in &SHAPES {
        for place in 1..shape.len {
            for byte in 0..=255_u8 {
                let mut message = shape.message();
                message[place] = byte;
                let mut out = vec![0x55; 80];
                let told = echo(shape.inbound, &message, &mut out);
                assert_eq!(
                    told,
                    told_at(first_bad(&message, shape.fields())),
                    "{} {place} {byte}",
                    char::from(shape.kind)
                );
                let changed = if told.answer == 0 {
                    message.as_slice()
                } else {
                    &[0x55; 80]
                };
                assert_eq!(out[..changed.len()], *changed);
            }
        }
    }
}

#[test]
fn stamps_are_judged_on_both_sides() {
    for shape in SHAPES.iter().filter(|shape| !shape.inbound) {
        for (stamp, place) in [
            (0, None),
            (86_399_999_999_999, None),
            // The first two bytes are those of a legal stamp, and yet the field is told from there.
            (86_400_000_000_000, Some(1)),
            (u64::MAX, Some(1)),
        ] {
            let mut message = shape.message();
            message[1..9].copy_from_slice(&u64::to_be_bytes(stamp));
            assert_eq!(shape.echo(&message), told_at(place));
        }
    }
}

/// A wrong type or length, of which no place is told whatever else is bad.
const WRONG: Told = Told {
    answer: 2,
    place: 0,
};

#[test]
fn length_and_type_come_first() {
    for shape in &SHAPES {
        let mut bad = shape.message();
        bad[1] = 0xff;
        let longer = [bad.as_slice(), b" "].concat();
        let mut out = [0x55; 100];
        for (inbound, message) in [
            (shape.inbound, &bad[..shape.len - 1]),
            (shape.inbound, &longer),
            // The twins U and M differ in length.
            (!shape.inbound, &bad),
        ] {
            assert_eq!(echo(inbound, message, &mut out), WRONG);
        }
        assert_eq!(out, [0x55; 100]);
    }
    assert_eq!(echo(true, b"", &mut [0; 80]), WRONG);
    assert_eq!(echo(false, b"", &mut [0; 80]), WRONG);
}

#[test]
fn only_the_papers_types_are_known() {
    for kind in 0..=255_u8 {
        for (inbound, known) in [(true, b"OUXM".as_slice()), (false, b"SAUCDEBJPITM")] {
            let readable = (0..=90)
                .filter(|&len| {
                    let mut message = vec![b' '; len];
                    message.iter_mut().take(1).for_each(|b| *b = kind);
                    echo(inbound, &message, &mut [0; 90]).answer == 3
                })
                .count();
            // Spaces make legal tokens but bad stamps, sides and sweeps; X alone has none of them.
            let refused = known.contains(&kind) && !(inbound && kind == b'X');
            assert_eq!(
                readable,
                usize::from(refused),
                "kind {kind} inbound {inbound}"
            );
        }
    }
}

#[test]
fn room_is_asked_after_the_fields() {
    for shape in &SHAPES {
        let message = shape.message();
        let mut short = vec![0x55; shape.len - 1];
        let told = echo(shape.inbound, &message, &mut short);
        assert_eq!((told.answer, told.place), (13, 0));
        assert_eq!(short, vec![0x55; shape.len - 1]);
        let mut enough = vec![0x55; shape.len];
        assert_eq!(echo(shape.inbound, &message, &mut enough), told_at(None));
        let mut bad = message;
        bad[1] = 0xff;
        assert_eq!(echo(shape.inbound, &bad, &mut []), told_at(Some(1)));
    }
}

/// Written out once from document 004's offsets, so that the place of every field is in sight.
#[test]
fn each_judged_field_of_each_message_tells_its_first_byte() {
    for shape in &SHAPES {
        let fields: &[usize] = match (shape.inbound, shape.kind) {
            (true, b'O' | b'U') => &[1, 15, 42],
            (true, b'X') => &[1],
            (true, _) => &[1, 15],
            (false, b'S') => &[1],
            (false, b'U') => &[1, 9, 65],
            (false, _) => &[1, 9],
        };
        for &place in fields {
            let mut message = shape.message();
            message[place] = 0xff;
            let kind = char::from(shape.kind);
            assert_eq!(shape.echo(&message), told_at(Some(place)), "{kind}");
        }
        let begin: Vec<usize> = shape.fields().iter().map(|(at, _)| *at).collect();
        assert_eq!(begin, fields);
    }
}

/// Each of a message's judged bytes bad by itself, and any two of them at once.
#[test]
fn a_reader_tells_the_smallest_offset_of_a_bad_byte() {
    for shape in &SHAPES {
        let judged = places(shape.fields());
        for &first in &judged {
            for &other in judged.iter().filter(|&&other| other >= first) {
                let mut message = shape.message();
                (message[first], message[other]) = (0xff, 0xff);
                let kind = char::from(shape.kind);
                let told = shape.echo(&message);
                assert_eq!(told, told_at(Some(first)), "{kind} {first} {other}");
            }
        }
    }
}

/// A legal Modify.
fn a_modify() -> Modify {
    Modify {
        token: Token(*b"A             "),
        side: Side(b'B'),
        shares: Total(5),
    }
}

#[test]
fn a_writer_judges_values_that_no_reader_saw() {
    let mut out = [0x55; 20];
    let mut odd_side = a_modify();
    odd_side.side = Side(b'X');
    assert_eq!(odd_side.write(&mut out), Err(Answer::BadField(15)));
    let mut odd_token = odd_side;
    odd_token.token = Token(*b"ABCD-F-       ");
    assert_eq!(odd_token.write(&mut out[..0]), Err(Answer::BadField(5)));
    assert_eq!(
        a_modify().write(&mut out[..19]),
        Err(Answer::BufferTooShort)
    );
    assert_eq!(out, [0x55; 20]);
    assert_eq!(a_modify().write(&mut out), Ok(()));
    assert_eq!(out, *b"MA             B\0\0\0\x05");
}

#[test]
fn a_writer_judges_the_stamp() {
    let mut out = [0x55; 28];
    let canceled = Canceled {
        stamp: Stamp(86_400_000_000_000),
        token: a_modify().token,
        decrement: Removed(1),
        reason: b'U',
    };
    assert_eq!(canceled.write(&mut out), Err(Answer::BadField(1)));
    assert_eq!(out, [0x55; 28]);
}

/// The places of a layout follow one another without a gap from byte 1 to the end.
fn no_gaps<M: Message>() {
    let end = M::PLACES.iter().fold(1, |at, &(place, len)| {
        assert_eq!(place, at, "{}", char::from(M::KIND));
        at + len
    });
    assert_eq!(end, M::LEN, "{}", char::from(M::KIND));
}

#[test]
fn layouts_have_no_gaps() {
    no_gaps::<Enter>();
    no_gaps::<Replace>();
    no_gaps::<Cancel>();
    no_gaps::<Modify>();
    no_gaps::<SystemEvent>();
    no_gaps::<Accepted>();
    no_gaps::<Replaced>();
    no_gaps::<Canceled>();
    no_gaps::<AiqCancelled>();
    no_gaps::<Executed>();
    no_gaps::<BrokenTrade>();
    no_gaps::<Rejected>();
    no_gaps::<CancelPending>();
    no_gaps::<CancelReject>();
    no_gaps::<PriorityUpdate>();
    no_gaps::<Modified>();
    no_gaps::<MassCancelRequest>();
    no_gaps::<DisableRequest>();
    no_gaps::<EnableRequest>();
    let record = crate::order::Order::PLACES;
    assert_eq!(
        record.iter().fold(1, |at, &(place, len)| if place == at {
            at + len
        } else {
            0
        }),
        80
    );
}
