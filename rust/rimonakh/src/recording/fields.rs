//! What calls are given and answer: how each is read from a record, written there, shown, and lent to a call.

use crate::limits::MOST_LISTED;
use crate::{Guid, Oid, Oxid, SetId};
use alloc::vec;
use alloc::vec::Vec;
use core::fmt;

/// One of a record's numbers, or a list, which is a section of its own.
pub trait Field {
    /// The bytes of a number, or of an element of a list.
    fn size(&self) -> usize;

    fn is_list(&self) -> bool {
        false
    }

    fn put(&self, out: &mut Vec<u8>);

    /// Shows a number; of a list, how many elements it has.
    fn show(&self, f: &mut fmt::Formatter<'_>) -> fmt::Result;
}

/// A field that is read from the front of what is left; none where a mark is neither 0 nor 1.
pub trait FromRest<'a>: Sized {
    fn from_rest(rest: &mut Rest<'a>) -> Option<Self>;
}

/// A field as it is lent to a call.
pub trait Argument: Copy {
    /// What is kept while it is lent.
    type Kept;
    /// What the call takes.
    type Lent<'k>;

    fn keep(self) -> Self::Kept;

    fn lend(kept: &mut Self::Kept) -> Self::Lent<'_>;
}

/// The numbers and lists of a record that are not read yet. What is not there is zero, and no elements.
#[derive(Clone, Copy, Debug, Default)]
pub struct Rest<'a> {
    pub numbers: &'a [u8],
    pub lists: [&'a [u8]; 2],
}

impl<'a> Rest<'a> {
    fn number<const N: usize>(&mut self) -> [u8; N] {
        let (front, rest) = self.numbers.split_first_chunk().unwrap_or((&[0; N], &[]));
        self.numbers = rest;
        *front
    }

    fn list(&mut self) -> &'a [u8] {
        let [first, second] = self.lists;
        self.lists = [second, &[]];
        first
    }
}

/// An output buffer, of which a record has the length alone: any number.
#[derive(Clone, Copy, Debug, Default, PartialEq, Eq)]
pub struct Room(
    /// The length, in bytes.
    pub u64,
);

impl Room {
    pub(super) fn of(buffer: &[u8]) -> Room {
        Room(buffer.len() as u64)
    }
}

macro_rules! numbers {
    ($($type:ty, $read:expr, $bytes:expr, $shown:literal $value:expr;)+) => {$(
        impl Field for $type {
            fn size(&self) -> usize {
                $bytes(*self).len()
            }

            fn put(&self, out: &mut Vec<u8>) {
                out.extend($bytes(*self));
            }

            fn show(&self, f: &mut fmt::Formatter<'_>) -> fmt::Result {
                write!(f, $shown, $value(*self))
            }
        }

        impl FromRest<'_> for $type {
            fn from_rest(rest: &mut Rest<'_>) -> Option<$type> {
                $read(rest.number())
            }
        }
    )+};
}

// how each is read from its bytes, its bytes, and how it is shown
numbers! {
    bool, |[mark]: [u8; 1]| (mark < 2).then_some(mark == 1), |mark| [u8::from(mark)], "{}" u8::from;
    u16, |b| Some(u16::from_le_bytes(b)), u16::to_le_bytes, "{}" |n| n;
    u32, |b| Some(u32::from_le_bytes(b)), u32::to_le_bytes, "{}" |n| n;
    u64, |b| Some(u64::from_le_bytes(b)), u64::to_le_bytes, "{}" |n| n;
    Room, |b| Some(Room(u64::from_le_bytes(b))), |n: Room| n.0.to_le_bytes(), "{}" |n: Room| n.0;
    SetId, |b| Some(SetId(u64::from_le_bytes(b))), |n: SetId| n.0.to_le_bytes(), "{}" |n: SetId| n.0;
    Oxid, |b| Some(Oxid(u64::from_le_bytes(b))), |n: Oxid| n.0.to_le_bytes(), "{:#018x}" |n| n;
    Oid, |b| Some(Oid(u64::from_le_bytes(b))), |n: Oid| n.0.to_le_bytes(), "{:#018x}" |n| n;
    Guid, |b| Some(Guid(b)), |g: Guid| g.0, "{}" |g| g;
}

macro_rules! lent_as_they_are {
    ($($type:ty),+) => {$(
        impl Argument for $type {
            type Kept = $type;
            type Lent<'k> = $type;

            fn keep(self) -> $type {
                self
            }

            fn lend(kept: &mut $type) -> $type {
                *kept
            }
        }
    )+};
}

lent_as_they_are!(bool, u16, u32, u64, SetId, Oxid, Oid, Guid);

/// A buffer of that length, or as long as the longest that a call writes.
impl Argument for Room {
    type Kept = Vec<u8>;
    type Lent<'k> = &'k mut [u8];

    fn keep(self) -> Vec<u8> {
        vec![0; self.0.min(MOST_LISTED as u64) as usize]
    }

    fn lend(kept: &mut Vec<u8>) -> &mut [u8] {
        kept
    }
}

/// Bytes of any number: binding lists, items, references and snapshots.
impl Field for &[u8] {
    fn size(&self) -> usize {
        1
    }

    fn is_list(&self) -> bool {
        true
    }

    fn put(&self, out: &mut Vec<u8>) {
        out.extend(*self);
    }

    fn show(&self, f: &mut fmt::Formatter<'_>) -> fmt::Result {
        write!(f, "{}", self.len())
    }
}

impl<'a> FromRest<'a> for &'a [u8] {
    fn from_rest(rest: &mut Rest<'a>) -> Option<&'a [u8]> {
        Some(rest.list())
    }
}

impl<'a> Argument for &'a [u8] {
    type Kept = &'a [u8];
    type Lent<'k> = &'a [u8];

    fn keep(self) -> &'a [u8] {
        self
    }

    fn lend(kept: &mut &'a [u8]) -> &'a [u8] {
        kept
    }
}

macro_rules! lists {
    ($($(#[$doc:meta])+ $name:ident $element:ty, $size:literal, $read:expr, $bytes:expr;)+) => {$(
        $(#[$doc])+
        #[derive(Clone, Copy, Default, PartialEq, Eq)]
        pub struct $name<'a>(pub(super) &'a [u8]);

        impl<'a> $name<'a> {
            /// The list that these bytes are, of whole elements.
            pub fn from_bytes(bytes: &'a [u8]) -> Option<$name<'a>> {
                (bytes.len() % $size == 0).then_some($name(bytes))
            }

            /// The bytes of elements.
            pub fn bytes(elements: &[$element]) -> Vec<u8> {
                elements.iter().flat_map($bytes).collect()
            }

            /// The elements.
            pub fn iter(self) -> impl DoubleEndedIterator<Item = $element> + ExactSizeIterator + 'a {
                let read: fn([u8; $size]) -> $element = $read;
                let elements = self.0.chunks_exact($size);
                elements.map(move |element| read(core::array::from_fn(|k| element[k])))
            }

            /// How many there are.
            pub fn len(self) -> usize {
                self.0.len() / $size
            }

            /// Whether there are none.
            pub fn is_empty(self) -> bool {
                self.0.is_empty()
            }
        }

        impl fmt::Debug for $name<'_> {
            fn fmt(&self, f: &mut fmt::Formatter<'_>) -> fmt::Result {
                f.debug_list().entries(self.iter()).finish()
            }
        }

        impl Field for $name<'_> {
            fn size(&self) -> usize {
                $size
            }

            fn is_list(&self) -> bool {
                true
            }

            fn put(&self, out: &mut Vec<u8>) {
                out.extend(self.0);
            }

            fn show(&self, f: &mut fmt::Formatter<'_>) -> fmt::Result {
                write!(f, "{}", self.len())
            }
        }

        impl<'a> FromRest<'a> for $name<'a> {
            fn from_rest(rest: &mut Rest<'a>) -> Option<$name<'a>> {
                Some($name(rest.list()))
            }
        }

        impl Argument for $name<'_> {
            type Kept = Vec<$element>;
            type Lent<'k> = &'k [$element];

            fn keep(self) -> Vec<$element> {
                self.iter().collect()
            }

            fn lend(kept: &mut Vec<$element>) -> &[$element] {
                kept
            }
        }
    )+};
}

lists! {
    /// The adds or deletes of a complex ping.
    Oids Oid, 8, |b| Oid(u64::from_le_bytes(b)), |o| o.0.to_le_bytes();
    /// The protocols of a filtered resolve.
    Protocols u16, 2, u16::from_le_bytes, |p| p.to_le_bytes();
}
