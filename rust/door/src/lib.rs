//! The door to the proved host: slices in, answers out, a [`Host`] over lent memory, and a [`Desk`]
//! that owns its memory.
//!
//! The functions are proved, compiled to an archive by `tools/archive` and linked by cargo.
//! Each is total: it has an answer for every table, ring, pair of marks, list of stocks and entry,
//! sound or not, and only [`Answer::Done`] changes anything.
//!
//! A table has a header, its records, and behind them a bit for each record, set exactly while that is
//! used and its order is live: the lowest bit of the first byte is the first record's, and spare bits
//! are zero. Bytes 60 to 63 hold the sum of the live orders' open shares, and byte 2, the form, is 1.
//! All this is so in a sound table and stays so with every entry; [`status`] reads the two numbers off
//! it, and [`convert`] rebuilds a table that was kept in the old form, which had none of it.
//!
//! A [`Desk`] is the usual way in, and a [`Host`] the one for memory that is the caller's own. The
//! calls below them take each buffer by itself, as `include/pilaqsevi.h` does for C.

mod answer;
mod desk;
mod host;
mod limits;
mod raw;

pub use answer::Answer;
pub use desk::{Desk, Settings};
pub use host::Host;
pub use limits::{
    HEADER_SIZE, HIGHEST_THRESHOLD, LONGEST_ENTRY, LONGEST_MESSAGE, LONGEST_RING, MOST_FIRMS,
    MOST_RECORDS, MOST_STOCKS, RECORD_SIZE, SHORTEST_RING, STOCK_SIZE, SYMBOL_SIZE, old_table_size,
    stocks_size, table_size,
};

/// What a place or a number of a status is before a call: every call writes it, and one that did not
/// would be found out by this, which is neither.
const UNTOLD: usize = usize::MAX;

/// Where the held bytes of a ring begin and how many they are. A new ring has zeros.
#[derive(Clone, Copy, Debug, Default, PartialEq, Eq)]
pub struct Marks {
    /// The read place, below the ring's length.
    pub at: usize,
    /// The held count, at most the ring's length.
    pub held: usize,
}

/// What a status screen shows of a table.
#[derive(Clone, Copy, Debug, Default, PartialEq, Eq)]
pub struct Status {
    /// How many orders are live.
    pub live: usize,
    /// How many shares of them are open, in all.
    pub open: usize,
}

/// Why this program can't call the proved functions, or nothing where it can.
///
/// Where there is a reason, each call below ends the program with it.
pub fn absent() -> Option<&'static str> {
    raw::ABSENT
}

/// Makes the table fresh: day 0, nothing used, this threshold and these firms (1 to 8, the first
/// is the default; each 1 to 4 capitals, then spaces).
///
/// A table has [`table_size`] bytes of 1 to 800 records, or the answer is [`Answer::NotSound`]; then
/// bad settings are [`Answer::BadSettings`].
#[inline]
pub fn fresh(table: &mut [u8], threshold: u32, firms: &[[u8; 4]]) -> Answer {
    let firms = firms.as_flattened();
    // SAFETY: both pointers come with the lengths of their slices, the borrows are apart and last
    // through the call, and the function keeps no pointer.
    Answer::of(unsafe {
        raw::pq_fresh(
            table.as_mut_ptr(),
            table.len(),
            threshold,
            firms.as_ptr(),
            firms.len(),
        )
    })
}

/// Rebuilds a table of the old form, which was kept from before, in a second buffer.
///
/// An old table has [`old_table_size`] bytes of 1 to 800 records, with zeros as its form and in bytes
/// 60 to 63. Where it isn't sound as such the answer is [`Answer::NotSound`], and then a buffer that
/// hasn't exactly [`table_size`] bytes of as many records is [`Answer::NoRoom`]. What is written is
/// the old table with its form, its sum and its bits; unused records are carried as they are.
///
#[cfg_attr(archive, doc = "```")]
#[cfg_attr(not(archive), doc = "```ignore")]
/// use pilaqsevi::{Answer, convert, fresh, old_table_size, table_size};
///
/// let mut table = [0; table_size(10)];
/// assert_eq!(fresh(&mut table, 1_000_000, &[*b"ABCD"]), Answer::Done);
///
/// // The same in the old form: there is no live order, so that only the form was another.
/// let mut old = [0; old_table_size(10)];
/// old.copy_from_slice(&table[..old_table_size(10)]);
/// old[2] = 0;
///
/// let mut rebuilt = [0; table_size(10)];
/// assert_eq!(convert(&old, &mut rebuilt), Answer::Done);
/// assert_eq!(rebuilt, table);
/// ```
#[inline]
pub fn convert(old: &[u8], table: &mut [u8]) -> Answer {
    // SAFETY: both pointers come with the lengths of their slices, the borrows are apart and last
    // through the call, and the function keeps no pointer.
    Answer::of(unsafe { raw::pq_convert(old.as_ptr(), old.len(), table.as_mut_ptr(), table.len()) })
}

/// Offers one entry to the host that the table's bytes describe.
///
/// The list of stocks is 0 to 2,000 places, each a symbol of eight bytes and its state, T or H, and
/// strictly ascending by the symbols' bytes, or the answer is [`Answer::WrongStocks`].
///
/// A done entry changes the table and puts at most one message behind the ring's held bytes; a done
/// halt (h) sets one state of the list and sends nothing, and nothing else touches the list. A
/// blocked one ([`Answer::Blocked`]) may be offered again once bytes have been released. A bad one
/// ([`Answer::BadField`]) tells its first bad byte, counted from the kind as 0.
///
/// A w cancels one order of its firm and, unless that is eight spaces, of its symbol: the first in
/// the table that is live and not late. The same w may come again, until [`Answer::Ignored`] says
/// that none is left. A d blocks a firm, whose new orders are then Rejected with letter a, and an n
/// lets it in again; both send nothing. Byte 3 of the table has the blocked firms' bits, the lowest
/// for the first firm. A firm that isn't listed is [`Answer::UnlistedFirm`].
#[inline]
pub fn step(
    table: &mut [u8],
    ring: &mut [u8],
    marks: &mut Marks,
    stocks: &mut [u8],
    entry: &[u8],
) -> Answer {
    let mut place = UNTOLD;
    // SAFETY: each pointer comes with the length of its slice or is to one number, the borrows are
    // apart and last through the call, and the function keeps no pointer.
    let number = unsafe {
        raw::pq_step(
            table.as_mut_ptr(),
            table.len(),
            ring.as_mut_ptr(),
            ring.len(),
            &mut marks.at,
            &mut marks.held,
            stocks.as_mut_ptr(),
            stocks.len(),
            entry.as_ptr(),
            entry.len(),
            &mut place,
        )
    };
    Answer::at(number, place)
}

/// How many orders are live and how many shares of them are open, without a walk over the records: the
/// ones among the table's bits, and what its bytes 60 to 63 hold.
///
/// Over a sound table that is what counting would give. Whether it is sound isn't judged; only where
/// its length or its form is no table's the answer is [`Answer::NotSound`].
#[inline]
pub fn status(table: &[u8]) -> Result<Status, Answer> {
    let mut status = Status {
        live: UNTOLD,
        open: UNTOLD,
    };
    // SAFETY: the first pointer comes with the length of its slice, which is only read, the others
    // are to one number each, apart from each other, and the function keeps none.
    let number = unsafe {
        raw::pq_status(
            table.as_ptr(),
            table.len(),
            &mut status.live,
            &mut status.open,
        )
    };
    match Answer::beside(number, status) {
        Answer::Done => Ok(status),
        refused => Err(refused),
    }
}

/// The longest unbroken run of held bytes from the read place, a part of the ring itself. Over a
/// wrong ring length or wrong marks, as over nothing held, it is empty.
#[inline]
pub fn read(ring: &[u8], marks: Marks) -> &[u8] {
    // SAFETY: the pointer comes with the length of its slice, which is only read.
    let len = unsafe { raw::pq_read(ring.as_ptr(), ring.len(), marks.at, marks.held) };
    // Cut by Rust's own checks, so that no promise of the archive is needed for safety here.
    let from_place = ring.get(marks.at..).unwrap_or(&[]);
    from_place.get(..len).unwrap_or(&[])
}

/// Gives up k held bytes of a ring of this length: [`Answer::WrongRing`] for a wrong length or
/// wrong marks, [`Answer::NotHeld`] for more than is held.
#[inline]
pub fn release(ring_len: usize, marks: &mut Marks, k: usize) -> Answer {
    // SAFETY: the pointers are to two numbers that are borrowed through the call, apart from each
    // other, and the function keeps neither.
    Answer::of(unsafe { raw::pq_release(ring_len, &mut marks.at, &mut marks.held, k) })
}

/// Reads one of the sixteen messages and writes it back into `out`; bytes after it stay.
///
/// U and M name two messages each, and `inbound` says which is meant. A bad message
/// ([`Answer::BadField`]) tells its first bad byte, counted from the type as 0.
#[inline]
pub fn echo(inbound: bool, message: &[u8], out: &mut [u8]) -> Answer {
    let mut place = UNTOLD;
    // SAFETY: each pointer comes with the length of its slice or is to one number, the borrows are
    // apart and last through the call, and the function keeps no pointer.
    let number = unsafe {
        raw::pq_echo(
            u8::from(inbound),
            message.as_ptr(),
            message.len(),
            out.as_mut_ptr(),
            out.len(),
            &mut place,
        )
    };
    Answer::at(number, place)
}

/// Makes an entry of the tape from a message and its time; bytes of `entry` after it stay.
///
/// A client's O, U, X and M become the entries of these kinds. Where `purge` is set, the message is
/// one of the purge port's requests: Mass Cancel (M) becomes w, Disable Order Entry (D) becomes d
/// and Enable Order Entry (E) becomes n. The entry is as long as [`entry_length`] says of its first
/// byte, and its stamp is the one that is given: the step judges it.
///
/// A bad message ([`Answer::BadField`]) tells its first bad byte, counted from the type as 0. In a
/// request that is an account other than six spaces, at 9, or an appendage length other than 0, at
/// 23. A buffer that is too short is [`Answer::NoRoom`]; one of [`LONGEST_ENTRY`] bytes never is.
///
#[cfg_attr(archive, doc = "```")]
#[cfg_attr(not(archive), doc = "```ignore")]
/// # fn main() -> Result<(), pilaqsevi::Answer> {
/// use pilaqsevi::{Answer, Desk, LONGEST_ENTRY, Settings, entry, entry_length};
///
/// // All orders of ABCD are to go: reference 1, the firm, no account, no symbol and no appendage.
/// let request = b"M\0\0\0\x01ABCD              \0\0";
/// let mut buffer = [0; LONGEST_ENTRY];
/// assert_eq!(entry(true, 7, request, &mut buffer), Answer::Done);
/// let purge = &buffer[..entry_length(buffer[0]).unwrap_or(0)];
/// assert_eq!(purge, b"w\0\0\0\0\0\0\0\x07ABCD        ");
///
/// // Each offer cancels one order, and the last finds none. A blocked one waits for its reader.
/// let settings = Settings { threshold: 1_000_000, firms: &[*b"ABCD"] };
/// let mut desk = Desk::new(settings, 800, 4_096, b"ABC     T")?;
/// let last = loop {
///     match desk.offer(purge) {
///         Answer::Done => {}
///         Answer::Blocked => assert_eq!(desk.release(desk.read().len()), Answer::Done),
///         other => break other,
///     }
/// };
/// assert_eq!(last, Answer::Ignored);
/// # Ok(()) }
/// ```
#[inline]
pub fn entry(purge: bool, stamp: u64, message: &[u8], entry: &mut [u8]) -> Answer {
    let mut place = UNTOLD;
    // SAFETY: each pointer comes with the length of its slice or is to one number, the borrows are
    // apart and last through the call, and the function keeps no pointer.
    let number = unsafe {
        raw::pq_entry(
            u8::from(purge),
            stamp,
            message.as_ptr(),
            message.len(),
            entry.as_mut_ptr(),
            entry.len(),
            &mut place,
        )
    };
    Answer::at(number, place)
}

/// The length of an entry of this kind, its byte of kind and its stamp included.
#[inline]
pub fn entry_length(kind: u8) -> Option<usize> {
    // SAFETY: the function is given a number and nothing else.
    some_length(unsafe { raw::pq_entry_length(kind) })
}

/// The length of the message of this type, its type included, among a client's four where `inbound`
/// is set and otherwise among the host's twelve.
#[inline]
pub fn message_length(inbound: bool, letter: u8) -> Option<usize> {
    // SAFETY: the function is given two numbers and nothing else.
    some_length(unsafe { raw::pq_message_length(u8::from(inbound), letter) })
}

/// The archive's 0 means that there is none.
fn some_length(length: usize) -> Option<usize> {
    (length > 0).then_some(length)
}
