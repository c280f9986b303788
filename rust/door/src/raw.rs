//! The archive's functions as C sees them, declared once for both kinds of build.
//!
//! Where the archive is linked these are its functions. Where there is none, functions of the same
//! types stand in their places and end the program with the reason, so that all that calls them is
//! compiled, and held to their types, on every machine.

macro_rules! archive {
    ($($(#[$doc:meta])* fn $name:ident($($argument:ident: $kind:ty),*) -> $result:ty;)*) => {
        #[cfg(archive)]
        unsafe extern "C" {
            $($(#[$doc])* pub fn $name($($argument: $kind),*) -> $result;)*
        }
        $(
            #[cfg(not(archive))]
            #[allow(clippy::too_many_arguments, reason = "C lends each buffer as two arguments")]
            $(#[$doc])*
            pub unsafe fn $name($(_: $kind),*) -> $result {
                panic!("{}", ABSENT.unwrap_or_default())
            }
        )*
    };
}

// A pointer is to as many bytes as the length behind it says; `at`, `held`, `place`, `live` and
// `open` are to one number, and the last three are written by every call that has them.
archive! {
    /// Makes the table fresh; the firms are 4 bytes each, one after the other, and `firms_len`
    /// counts bytes.
    fn pq_fresh(
        table: *mut u8, table_len: usize, threshold: u32, firms: *const u8, firms_len: usize
    ) -> u8;

    /// Rebuilds a table of the old form in a second buffer.
    fn pq_convert(old_table: *const u8, old_len: usize, table: *mut u8, table_len: usize) -> u8;

    /// Offers one entry, and tells its first bad byte.
    fn pq_step(
        table: *mut u8, table_len: usize, ring: *mut u8, ring_len: usize,
        at: *mut usize, held: *mut usize, stocks: *mut u8, stocks_len: usize,
        entry: *const u8, entry_len: usize, place: *mut usize
    ) -> u8;

    /// Tells how many orders are live, and the sum of their open shares.
    fn pq_status(
        table: *const u8, table_len: usize, live: *mut usize, open: *mut usize
    ) -> u8;

    /// The length of the run that starts at `ring + at`.
    fn pq_read(ring: *const u8, ring_len: usize, at: usize, held: usize) -> usize;

    /// Gives up k held bytes.
    fn pq_release(ring_len: usize, at: *mut usize, held: *mut usize, k: usize) -> u8;

    /// Reads the message and writes it back into `out`, and tells its first bad byte.
    fn pq_echo(
        inbound: u8, message: *const u8, len: usize, out: *mut u8, out_len: usize,
        place: *mut usize
    ) -> u8;

    /// Makes an entry from a message and a stamp, and tells the message's first bad byte.
    fn pq_entry(
        purge: u8, stamp: u64, message: *const u8, len: usize, entry: *mut u8, entry_len: usize,
        place: *mut usize
    ) -> u8;

    /// The length of an entry of this kind; 0 for no kind.
    fn pq_entry_length(kind: u8) -> usize;

    /// The length of the message of this type; 0 for no type.
    fn pq_message_length(inbound: u8, letter: u8) -> usize;
}

/// Why no archive is linked, as the build found it.
#[cfg(archive)]
pub const ABSENT: Option<&str> = None;
#[cfg(not(archive))]
pub const ABSENT: Option<&str> = Some(env!("PILAQSEVI_ABSENT"));
