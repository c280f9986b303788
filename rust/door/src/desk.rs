//! A desk: one host with its memory, so that nobody wires table, ring, marks and list by hand.

use crate::{
    Answer, Host, LONGEST_RING, MOST_RECORDS, Marks, Status, read, release, status, table_size,
};

/// What a fresh table is made from.
#[derive(Clone, Copy, Debug, PartialEq, Eq)]
pub struct Settings<'a> {
    /// Shares of an order are below it; 1 to 1,000,000.
    pub threshold: u32,
    /// 1 to 8 firms, each 1 to 4 capitals, then spaces; the first is the default.
    pub firms: &'a [[u8; 4]],
}

/// A host with a table, a ring and its marks, and a list of stocks, of its own.
///
#[cfg_attr(archive, doc = "```")]
#[cfg_attr(not(archive), doc = "```ignore")]
/// # fn main() -> Result<(), pilaqsevi::Answer> {
/// use pilaqsevi::{Answer, Desk, Settings};
///
/// let settings = Settings { threshold: 1_000_000, firms: &[*b"ABCD"] };
/// let mut desk = Desk::new(settings, 800, 4_096, b"ABC     T")?;
/// assert_eq!(desk.offer(b"s\0\0\0\0\0\0\0\x01S"), Answer::Done);
/// assert_eq!(desk.read(), b"S\0\0\0\0\0\0\0\x01S");
/// assert_eq!(desk.release(10), Answer::Done);
///
/// // A Cancel whose token has a dash: its first byte is 9, and the dash is the third from there.
/// let answer = desk.offer(b"X\0\0\0\0\0\0\0\x02AB-D          \0\0\0\0");
/// assert_eq!(answer, Answer::BadField { place: 11 });
/// assert_eq!(answer.to_string(), "3: bad byte at 11");
///
/// // The one stock is halted.
/// assert_eq!(desk.offer(b"h\0\0\0\0\0\0\0\x02ABC     H"), Answer::Done);
/// assert_eq!(desk.stocks(), b"ABC     H");
/// # Ok(()) }
/// ```
#[derive(Clone, Debug, PartialEq, Eq)]
pub struct Desk {
    table: Vec<u8>,
    ring: Vec<u8>,
    stocks: Vec<u8>,
    marks: Marks,
}

impl Desk {
    /// A fresh table of so many records (1 to 800), an empty ring of so many bytes (80 to 65,536)
    /// and a list of stocks (0 to 2,000 places of nine bytes), or what is wrong with them:
    /// [`Answer::NotSound`] for the records, then [`Answer::BadSettings`] for the settings,
    /// [`Answer::WrongRing`] for the ring and [`Answer::WrongStocks`] for the list.
    pub fn new(
        settings: Settings,
        records: usize,
        ring_bytes: usize,
        stocks: &[u8],
    ) -> Result<Desk, Answer> {
        // A number above the most is as wrong as any other, and no reason to ask for memory.
        let mut desk = Desk {
            table: vec![0; table_size(records.min(MOST_RECORDS + 1))],
            ring: vec![0; ring_bytes.min(LONGEST_RING + 1)],
            stocks: stocks.to_vec(),
            marks: Marks::default(),
        };
        let mut host = desk.host();
        must_be(host.fresh(settings.threshold, settings.firms), Answer::Done)?;
        // An empty entry changes nothing, and is told only where all that is lent is right.
        must_be(host.step(&[]), Answer::Malformed)?;
        Ok(desk)
    }

    /// Offers one entry. Where it is [`Answer::Blocked`], release some bytes and offer it again;
    /// where it is [`Answer::BadField`], the answer says which byte was bad.
    pub fn offer(&mut self, entry: &[u8]) -> Answer {
        let mut host = self.host();
        let answer = host.step(entry);
        self.marks = host.marks();
        answer
    }

    /// How many orders are live and how many shares of them are open. A desk's table is always sound,
    /// so that this is never refused.
    pub fn status(&self) -> Status {
        status(&self.table).expect("a desk's table is of a table's length and form")
    }

    /// The longest unbroken run of bytes that are to be sent next: all that is held, or the part
    /// before the ring's end. They stay held until they are released.
    pub fn read(&self) -> &[u8] {
        read(&self.ring, self.marks)
    }

    /// Gives up the oldest k held bytes; [`Answer::NotHeld`] for more than are held.
    pub fn release(&mut self, k: usize) -> Answer {
        release(self.ring.len(), &mut self.marks, k)
    }

    /// How many bytes are held.
    pub fn held(&self) -> usize {
        self.marks.held
    }

    /// The read place and the held count.
    pub fn marks(&self) -> Marks {
        self.marks
    }

    /// The table's bytes, to look at or to keep.
    pub fn table(&self) -> &[u8] {
        &self.table
    }

    /// The ring's bytes, held or not.
    pub fn ring(&self) -> &[u8] {
        &self.ring
    }

    /// The list's bytes, to look at or to keep.
    pub fn stocks(&self) -> &[u8] {
        &self.stocks
    }

    /// The host over this desk's memory.
    fn host(&mut self) -> Host<'_> {
        Host::new(&mut self.table, &mut self.ring)
            .with_stocks(&mut self.stocks)
            .with_marks(self.marks)
    }
}

/// Anything but the wanted answer is an error.
fn must_be(answer: Answer, wanted: Answer) -> Result<(), Answer> {
    if answer == wanted {
        Ok(())
    } else {
        Err(answer)
    }
}
