//! The outbox: a ring of held bytes, with the read place and the held count as its marks.

use crate::answer::Answer;

/// The ring lengths that the paper allows.
const RING_LENGTHS: std::ops::RangeInclusive<usize> = 80..=65_536;

/// Where the held bytes begin and how many they are.
#[derive(Clone, Copy, Debug, PartialEq, Eq)]
pub struct Marks {
    pub at: usize,
    pub held: usize,
}

impl Marks {
    /// Whether the marks, and the length itself, are right for a ring of this length.
    pub fn right_for(self, ring_len: usize) -> bool {
        RING_LENGTHS.contains(&ring_len) && self.at < ring_len && self.held <= ring_len
    }

    /// The marks after k bytes are given up: 11, then 12.
    pub fn released(self, ring_len: usize, k: usize) -> Result<Marks, Answer> {
        if !self.right_for(ring_len) {
            return Err(Answer::WrongMarks);
        }
        let held = self.held.checked_sub(k).ok_or(Answer::ReleaseAboveHeld)?;
        // Both numbers are at most 65,536 here, so the sum is small.
        let at = (self.at + k) % ring_len;
        Ok(Marks { at, held })
    }
}

/// An outbox over a ring that it owns (`Vec<u8>`) or borrows (`&mut [u8]`). Its marks are right.
#[derive(Clone, Debug)]
pub struct Outbox<R> {
    ring: R,
    marks: Marks,
}

impl Outbox<Vec<u8>> {
    /// An outbox of its own with nothing held, or nothing where the length is wrong.
    pub fn empty(ring_len: usize) -> Option<Self> {
        // Asked first, so that a huge length costs no memory.
        let marks = Marks { at: 0, held: 0 };
        marks.right_for(ring_len).then(|| Outbox {
            ring: vec![0; ring_len],
            marks,
        })
    }
}

impl<R: AsRef<[u8]>> Outbox<R> {
    /// An outbox over this ring, or nothing where its length or the marks are wrong.
    pub fn over(ring: R, at: usize, held: usize) -> Option<Self> {
        let marks = Marks { at, held };
        marks
            .right_for(ring.as_ref().len())
            .then(|| Outbox { ring, marks })
    }

    /// The read place.
    pub fn at(&self) -> usize {
        self.marks.at
    }

    /// The held count.
    pub fn held(&self) -> usize {
        self.marks.held
    }

    /// All bytes of the ring, held or not.
    pub fn ring(&self) -> &[u8] {
        self.ring.as_ref()
    }

    /// The longest unbroken run of held bytes from the read place.
    pub fn run(&self) -> &[u8] {
        run(self.ring.as_ref(), self.marks)
    }

    /// Gives up k bytes.
    pub fn release(&mut self, k: usize) -> u8 {
        let released = self.marks.released(self.ring.as_ref().len(), k);
        Answer::of(released.map(|marks| self.marks = marks)).number()
    }
}

impl<R: AsRef<[u8]> + AsMut<[u8]>> Outbox<R> {
    /// Puts a whole message behind the held bytes, or changes nothing where there is no room.
    pub fn put(&mut self, message: &[u8]) -> Result<(), Answer> {
        let Marks { at, held } = self.marks;
        let ring = self.ring.as_mut();
        if message.len() > ring.len() - held {
            return Err(Answer::NoRoom);
        }
        let start = (at + held) % ring.len();
        let before_end = message.len().min(ring.len() - start);
        let (first, wrapped) = message.split_at(before_end);
        ring[start..start + before_end].copy_from_slice(first);
        ring[..wrapped.len()].copy_from_slice(wrapped);
        self.marks.held = held + message.len();
        Ok(())
    }
}

/// The longest unbroken run of held bytes; empty where length or marks are wrong.
pub fn run(ring: &[u8], marks: Marks) -> &[u8] {
    if !marks.right_for(ring.len()) {
        return &[];
    }
    let from_place = &ring[marks.at..];
    &from_place[..marks.held.min(from_place.len())]
}
