//! s: the day opens once and closes once.

use super::{Deed, Sent};
use crate::answer::Answer;
use crate::entry::System;
use crate::host::Host;
use crate::messages::SystemEvent;
use crate::table::Day;

pub fn system(host: &Host, s: &System) -> Result<Deed, Answer> {
    let day = match (s.code.0, host.header.day) {
        (b'S', Day::Before) => Day::Open,
        (b'E', Day::Open) => Day::Closed,
        _ => return Err(Answer::WrongMoment),
    };
    let message = SystemEvent {
        stamp: s.stamp,
        code: s.code.0,
    };
    Ok(Deed {
        sends: Some(Sent::new(&message)),
        day: Some(day),
        ..Deed::default()
    })
}
