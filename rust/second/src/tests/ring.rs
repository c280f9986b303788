//! The ring: wrapping, reading and releasing.

use super::kit::*;
use crate::{Outbox, read, release};

/// Canceled is 28 bytes; over 80 bytes it wraps at many places.
#[test]
fn a_message_goes_behind_the_held_bytes_from_every_place() {
    let message = canceled(4, "A", 200, b'U');
    for at in 0..80 {
        for held in 0..=80 {
            let mut desk = Desk::worked().with_ring(80);
            desk.ring = (100..180).collect();
            (desk.at, desk.held) = (at, held);
            let mut ring = desk.ring.clone();
            let answer = desk.answer(&cancel(4, "A", 300));
            assert_eq!(
                answer,
                if held <= 52 { 0 } else { 9 },
                "at {at} held {held}"
            );
            if answer == 0 {
                for (place, &byte) in message.iter().enumerate() {
                    ring[(at + held + place) % 80] = byte;
                }
                assert_eq!(desk.held, held + 28);
            }
            assert_eq!(desk.ring, ring, "at {at} held {held}");
        }
    }
}

#[test]
fn reading_gives_the_run_up_to_the_rings_end() {
    let ring: Vec<u8> = (0..80).collect();
    assert_eq!(read(&ring, 10, 5), [10, 11, 12, 13, 14]);
    assert_eq!(read(&ring, 70, 10), &ring[70..]);
    assert_eq!(
        read(&ring, 70, 11),
        &ring[70..],
        "the rest comes after a release"
    );
    assert_eq!(read(&ring, 79, 80), [79]);
    assert_eq!(read(&ring, 0, 80), &ring[..]);
    assert_eq!(read(&ring, 7, 0), b"");
    assert_eq!(
        read(&ring, 10, 5).as_ptr(),
        ring[10..].as_ptr(),
        "a part of the ring itself"
    );
}

#[test]
fn reading_over_wrong_marks_or_lengths_is_empty() {
    let ring = vec![1; 65_537];
    assert_eq!(read(&ring, 0, 1), b"");
    assert_eq!(read(&ring[..79], 0, 1), b"");
    assert_eq!(read(&ring[..80], 80, 1), b"");
    assert_eq!(read(&ring[..80], 0, 81), b"");
    assert_eq!(read(&ring[..80], usize::MAX, usize::MAX), b"");
    assert_eq!(read(&[], 0, 0), b"");
    assert_eq!(read(&ring[..65_536], 65_535, 65_536), [1]);
}

#[test]
fn a_release_moves_the_place_around_and_lowers_the_count() {
    for (at, held, k, answer, at_after, held_after) in [
        (0, 0, 0, 0, 0, 0),
        (5, 10, 0, 0, 5, 10),
        (5, 10, 10, 0, 15, 0),
        (5, 10, 11, 12, 5, 10),
        (5, 10, usize::MAX, 12, 5, 10),
        (79, 80, 1, 0, 0, 79),
        (79, 80, 80, 0, 79, 0),
        (70, 20, 10, 0, 0, 10),
        (70, 20, 9, 0, 79, 11),
        (80, 0, 0, 11, 80, 0),
        (0, 81, 0, 11, 0, 81),
        (
            usize::MAX,
            usize::MAX,
            usize::MAX,
            11,
            usize::MAX,
            usize::MAX,
        ),
    ] {
        let (mut new_at, mut new_held) = (at, held);
        assert_eq!(
            release(80, &mut new_at, &mut new_held, k),
            answer,
            "{at} {held} {k}"
        );
        assert_eq!(
            (new_at, new_held),
            (at_after, held_after),
            "{at} {held} {k}"
        );
    }
}

#[test]
fn a_release_judges_the_rings_length_first() {
    for (len, answer) in [
        (0, 11),
        (79, 11),
        (80, 12),
        (65_536, 12),
        (65_537, 11),
        (usize::MAX, 11),
    ] {
        assert_eq!(release(len, &mut 0, &mut 0, 1), answer, "length {len}");
    }
}

/// The kept outbox is the byte ring with another owner.
#[test]
fn an_outbox_of_its_own_starts_empty_and_only_at_right_lengths() {
    for len in [0, 79, 65_537, usize::MAX] {
        assert!(Outbox::empty(len).is_none(), "length {len}");
    }
    let mut outbox = Outbox::empty(80).expect("80 is right");
    assert_eq!((outbox.at(), outbox.held(), outbox.run()), (0, 0, &b""[..]));
    assert_eq!(outbox.put(b"abc"), Ok(()));
    assert_eq!(outbox.release(2), 0);
    assert_eq!(outbox.release(2), 12);
    assert_eq!((outbox.at(), outbox.run()), (2, &b"c"[..]));
    assert_eq!(outbox.ring()[..3], *b"abc");
    assert!(Outbox::over(vec![0; 80], 80, 0).is_none());
    assert!(Outbox::over(vec![0; 80], 79, 80).is_some());
}
