//! Layouts as data: a struct is declared as one line a field with its offset, as document 004 does.

use crate::answer::Answer;

/// A struct whose fields stand at fixed places among bytes.
pub trait Fields: Sized {
    /// Offset and length of each field, in order.
    const PLACES: &'static [(usize, usize)];
    /// The fields of bytes that are long enough.
    fn get(bytes: &[u8]) -> Self;
    /// Writes the fields over bytes that are long enough.
    fn put(&self, out: &mut [u8]);
    /// The smallest offset of a bad byte, or nothing where every judged field is legal.
    fn bad_byte(&self) -> Option<usize>;
}

/// Fields behind one byte of type or kind, which fixes the length.
pub trait Message: Fields {
    const KIND: u8;
    const LEN: usize;

    /// Judges length and type (2), then the fields (3 and the place).
    fn read(bytes: &[u8]) -> Result<Self, Answer> {
        if bytes.len() != Self::LEN || bytes[0] != Self::KIND {
            return Err(Answer::WrongKindOrLength);
        }
        let message = Self::get(bytes);
        message.judged()?;
        Ok(message)
    }

    /// 3 and the smallest offset of a bad byte, the type's being 0.
    fn judged(&self) -> Result<(), Answer> {
        match self.bad_byte() {
            Some(place) => Err(Answer::BadField(place)),
            None => Ok(()),
        }
    }

    /// Judges the fields (3 and the place), then the room (13); bytes after the message stay.
    fn write(&self, out: &mut [u8]) -> Result<(), Answer> {
        self.judged()?;
        let out = out.get_mut(..Self::LEN).ok_or(Answer::BufferTooShort)?;
        out[0] = Self::KIND;
        self.put(out);
        Ok(())
    }
}

/// Whether each field begins where the one before it ends, or later.
pub(crate) const fn ascending(mut places: &[(usize, usize)]) -> bool {
    let mut end = 0;
    while let [(at, len), rest @ ..] = places {
        if *at < end {
            return false;
        }
        (end, places) = (*at + *len, rest);
    }
    true
}

/// Declares a struct of fields and where each stands.
macro_rules! fields {
    ($(#[$doc:meta])* $name:ident { $($at:literal $field:ident: $kind:ty,)* }) => {
        $(#[$doc])*
        #[derive(Clone, Copy, Debug, PartialEq, Eq)]
        pub struct $name {
            $(pub $field: $kind,)*
        }
        impl $crate::layout::Fields for $name {
            const PLACES: &'static [(usize, usize)] =
                &[$(($at, <$kind as $crate::field::Field>::LEN),)*];
            fn get(bytes: &[u8]) -> Self {
                use $crate::field::Field;
                $name { $($field: Field::get(&bytes[$at..$at + <$kind as Field>::LEN]),)* }
            }
            fn put(&self, out: &mut [u8]) {
                use $crate::field::Field;
                $(self.$field.put(&mut out[$at..$at + <$kind as Field>::LEN]);)*
            }
            fn bad_byte(&self) -> Option<usize> {
                use $crate::field::Field;
                None$(.or_else(|| self.$field.bad_byte().map(|byte| $at + byte)))*
            }
        }
        // The first bad field is the one with the smallest offset only because of this.
        const _: () = assert!($crate::layout::ascending(
            <$name as $crate::layout::Fields>::PLACES
        ));
    };
}
pub(crate) use fields;

/// Declares messages: type letter, name, whole length, then the fields after the type.
macro_rules! messages {
    ($($(#[$doc:meta])* $kind:literal $name:ident $len:literal { $($line:tt)* })*) => {$(
        $crate::layout::fields! { $(#[$doc])* $name { $($line)* } }
        impl $crate::layout::Message for $name {
            const KIND: u8 = $kind;
            const LEN: usize = $len;
        }
    )*};
}
pub(crate) use messages;
