//! Field types: how many bytes each takes, and which of them the paper judges.
//!
//! A field whose type is a plain number or byte is carried; only the types below with a `bad_byte`
//! of their own are judged. So a layout shows by its types what a reader refuses.

/// Nanoseconds of a day; a stamp is below this.
const DAY_NANOS: u64 = 86_400_000_000_000;
/// The highest price of a limit order.
pub const HIGHEST_PRICE: u32 = 1_999_999_900;

/// A value at a fixed place among bytes.
pub trait Field: Copy {
    /// How many bytes it takes.
    const LEN: usize;
    /// The value of exactly `LEN` bytes.
    fn get(bytes: &[u8]) -> Self;
    /// Writes the value over exactly `LEN` bytes.
    fn put(self, out: &mut [u8]);
    /// The first bad byte, counted from the field's own first, or nothing where the paper allows the
    /// value.
    fn bad_byte(self) -> Option<usize> {
        None
    }
    /// Whether the paper allows the value.
    fn good(self) -> bool {
        self.bad_byte().is_none()
    }
}

impl<const N: usize> Field for [u8; N] {
    const LEN: usize = N;
    fn get(bytes: &[u8]) -> Self {
        let mut value = [0; N];
        value.copy_from_slice(bytes);
        value
    }
    fn put(self, out: &mut [u8]) {
        out.copy_from_slice(&self);
    }
}

macro_rules! number_field {
    ($($number:ty),*) => {$(
        impl Field for $number {
            const LEN: usize = std::mem::size_of::<$number>();
            fn get(bytes: &[u8]) -> Self {
                <$number>::from_be_bytes(Field::get(bytes))
            }
            fn put(self, out: &mut [u8]) {
                self.to_be_bytes().put(out);
            }
        }
    )*};
}
number_field!(u8, u16, u32, u64);

/// Makes a tuple struct over a `u32` a field that is carried unjudged.
macro_rules! plain_field {
    ($($name:ident),*) => {$(
        impl Field for $name {
            const LEN: usize = 4;
            fn get(bytes: &[u8]) -> Self {
                $name(Field::get(bytes))
            }
            fn put(self, out: &mut [u8]) {
                self.0.put(out);
            }
        }
    )*};
}
pub(crate) use plain_field;

/// Declares a tuple struct that is a judged field, and how its first bad byte is found.
macro_rules! judged_field {
    ($($(#[$doc:meta])* $name:ident($inner:ty): $bad_byte:expr;)*) => {$(
        $(#[$doc])*
        #[derive(Clone, Copy, Debug, PartialEq, Eq, PartialOrd, Ord, Hash)]
        pub struct $name(pub $inner);
        impl Field for $name {
            const LEN: usize = <$inner as Field>::LEN;
            fn get(bytes: &[u8]) -> Self {
                $name(Field::get(bytes))
            }
            fn put(self, out: &mut [u8]) {
                self.0.put(out);
            }
            fn bad_byte(self) -> Option<usize> {
                let bad_byte: fn(&$inner) -> Option<usize> = $bad_byte;
                bad_byte(&self.0)
            }
        }
    )*};
}

judged_field! {
    /// A token: letters, digits and spaces only. It is the one field that is bad at a character.
    Token([u8; 14]): |token| token.iter().position(|&b| b != b' ' && !b.is_ascii_alphanumeric());
    /// Nanoseconds past midnight.
    Stamp(u64): |&stamp| first_unless(stamp < DAY_NANOS);
    /// A side as sent in.
    Side(u8): |side| first_unless(b"BSTE".contains(side));
    /// A sweep letter as sent in.
    Sweep(u8): |sweep| first_unless(b"YNy".contains(sweep));
    /// A liquidity flag of a tape's execution or self match.
    Flag(u8): |flag| first_unless(b"AROMCLHKJmkV".contains(flag));
    /// The reason of a book cancel.
    BookReason(u8): |reason| first_unless(b"ITSDZE".contains(reason));
    /// The code of a system entry.
    SystemCode(u8): |code| first_unless(b"SE".contains(code));
    /// The state of a listed stock: trading or halted.
    StockState(u8): |state| first_unless(b"TH".contains(state));
    /// The price of a priority entry.
    PriorityPrice(u32): |price| first_unless((1..=HIGHEST_PRICE).contains(price));
    /// The account of a purge port's request: blank, since orders here have none to tell apart.
    Account([u8; 6]): |account| first_unless(account == b"      ");
    /// The length of a request's further criteria, none of which is served.
    AppendageLength(u16): |&length| first_unless(length == 0);
}

/// What isn't a token and isn't good is bad as a whole, so from its first byte on.
fn first_unless(good: bool) -> Option<usize> {
    (!good).then_some(0)
}

/// Whether the bytes are at least one capital and then only spaces.
pub fn capitals_then_spaces(bytes: &[u8]) -> bool {
    let capitals = bytes.iter().take_while(|b| b.is_ascii_uppercase()).count();
    capitals > 0 && bytes[capitals..].iter().all(|&b| b == b' ')
}
