//! A ring over lent bytes as a Rust programmer would write it by hand, judged as the paper asks:
//! what put and release are held to where the job is the same.
//!
//! None is inlined, since the proved ones are calls into an archive.

use pilaqsevi::{LONGEST_RING, Marks, SHORTEST_RING};

const DONE: u8 = 0;
const BLOCKED: u8 = 9;
const WRONG_RING: u8 = 11;
const NOT_HELD: u8 = 12;

/// Whether a ring of this length and its marks are right.
pub fn right(ring_len: usize, marks: Marks) -> bool {
    (SHORTEST_RING..=LONGEST_RING).contains(&ring_len)
        && marks.at < ring_len
        && marks.held <= ring_len
}

/// Puts the message behind the held bytes; the caller counts them.
#[inline(never)]
pub fn put(ring: &mut [u8], marks: Marks, message: &[u8]) -> u8 {
    let len = ring.len();
    if !right(len, marks) {
        return WRONG_RING;
    }
    if message.len() > len - marks.held {
        return BLOCKED;
    }
    let mut place = marks.at + marks.held;
    if place >= len {
        place -= len;
    }
    let (to_end, around) = message.split_at(message.len().min(len - place));
    ring[place..place + to_end.len()].copy_from_slice(to_end);
    ring[..around.len()].copy_from_slice(around);
    DONE
}

/// Gives up k held bytes.
#[inline(never)]
pub fn release(ring_len: usize, marks: &mut Marks, k: usize) -> u8 {
    if !right(ring_len, *marks) {
        return WRONG_RING;
    }
    if k > marks.held {
        return NOT_HELD;
    }
    marks.at += k;
    if marks.at >= ring_len {
        marks.at -= ring_len;
    }
    marks.held -= k;
    DONE
}

#[cfg(test)]
mod tests {
    use pilaqsevi::Marks;
    use second::tapes::{Chance, damage};

    use super::{put, release};

    #[test]
    fn releases_as_the_second_host_does() {
        let mut chance = Chance::new(1);
        for _ in 0..20_000 {
            let len = damage::ring_length(&mut chance);
            let mut marks = Marks::default();
            damage::marks(&mut chance, len, &mut marks.at, &mut marks.held);
            let k = chance.pick(&[0, 1, len, marks.held, usize::MAX]);
            let (mut at, mut held) = (marks.at, marks.held);
            let right = second::release(len, &mut at, &mut held, k);
            assert_eq!(release(len, &mut marks, k), right);
            assert_eq!((marks.at, marks.held), (at, held));
        }
    }

    #[test]
    fn puts_around_the_end_and_only_where_there_is_room() {
        let mut ring = [0; 80];
        let marks = Marks { at: 70, held: 8 };
        assert_eq!(put(&mut ring, marks, b"abcd"), 0);
        assert_eq!((&ring[78..], &ring[..3]), (&b"ab"[..], &b"cd\0"[..]));
        assert_eq!(put(&mut ring, marks, &[1; 73]), 9);
        assert_eq!(put(&mut ring, Marks { at: 80, held: 0 }, b"a"), 11);
    }
}
