//! A host over memory that is lent to it: a driver stays the same when there is one buffer more.

use crate::{Answer, Marks, Status, fresh, read, release, status, step};

/// A host that borrows its table, ring and list of stocks, and holds the marks. It asks for no
/// memory.
///
#[cfg_attr(archive, doc = "```")]
#[cfg_attr(not(archive), doc = "```ignore")]
/// use pilaqsevi::{Answer, Host, SHORTEST_RING, table_size};
///
/// let (mut table, mut ring) = ([0; table_size(10)], [0; SHORTEST_RING]);
/// let mut stocks = *b"ABC     T";
/// let mut host = Host::new(&mut table, &mut ring).with_stocks(&mut stocks);
/// assert_eq!(host.fresh(1_000_000, &[*b"ABCD"]), Answer::Done);
///
/// // A halt sends nothing, and asks for no open day.
/// assert_eq!(host.step(b"h\0\0\0\0\0\0\0\x01ABC     H"), Answer::Done);
/// assert_eq!((host.stocks(), host.held()), (b"ABC     H".as_slice(), 0));
/// assert_eq!(host.status().map(|status| status.live), Ok(0));
/// ```
#[derive(Debug, PartialEq, Eq)]
pub struct Host<'a> {
    table: &'a mut [u8],
    ring: &'a mut [u8],
    stocks: &'a mut [u8],
    marks: Marks,
}

impl<'a> Host<'a> {
    /// A host over this memory, of whose ring nothing is held and which lists no stock. Nothing is
    /// judged before a call is.
    #[inline]
    pub fn new(table: &'a mut [u8], ring: &'a mut [u8]) -> Host<'a> {
        Host {
            table,
            ring,
            stocks: &mut [],
            marks: Marks::default(),
        }
    }

    /// The same host with this list of stocks.
    #[inline]
    pub fn with_stocks(self, stocks: &'a mut [u8]) -> Host<'a> {
        Host { stocks, ..self }
    }

    /// The same host, going on with these marks of its ring.
    #[inline]
    pub fn with_marks(self, marks: Marks) -> Host<'a> {
        Host { marks, ..self }
    }

    /// Makes the table fresh, as [`fresh`](crate::fresh) does. Ring, marks and list stay: what is
    /// held isn't forgotten, and what is halted stays so.
    #[inline]
    pub fn fresh(&mut self, threshold: u32, firms: &[[u8; 4]]) -> Answer {
        fresh(self.table, threshold, firms)
    }

    /// Offers one entry, as [`step`](crate::step) does.
    #[inline]
    pub fn step(&mut self, entry: &[u8]) -> Answer {
        step(self.table, self.ring, &mut self.marks, self.stocks, entry)
    }

    /// How many orders are live and how many shares of them are open, as
    /// [`status`](crate::status) tells.
    #[inline]
    pub fn status(&self) -> Result<Status, Answer> {
        status(self.table)
    }

    /// The longest unbroken run of bytes that are to be sent next, as [`read`](crate::read) gives.
    #[inline]
    pub fn read(&self) -> &[u8] {
        read(self.ring, self.marks)
    }

    /// Gives up the oldest k held bytes; [`Answer::NotHeld`] for more than are held.
    #[inline]
    pub fn release(&mut self, k: usize) -> Answer {
        release(self.ring.len(), &mut self.marks, k)
    }

    /// How many bytes are held.
    #[inline]
    pub fn held(&self) -> usize {
        self.marks.held
    }

    /// The read place and the held count.
    #[inline]
    pub fn marks(&self) -> Marks {
        self.marks
    }

    /// The table's bytes.
    #[inline]
    pub fn table(&self) -> &[u8] {
        self.table
    }

    /// The ring's bytes, held or not.
    #[inline]
    pub fn ring(&self) -> &[u8] {
        self.ring
    }

    /// The list's bytes.
    #[inline]
    pub fn stocks(&self) -> &[u8] {
        self.stocks
    }
}
