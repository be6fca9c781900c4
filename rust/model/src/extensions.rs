//! The extensions of a call header (ORPC_EXTENT_ARRAY), written from documents 000 (section 2.2.13), 001 (section 3.2) and 02 (request 14)
//! alone. They are read by a cursor, a field at a time: a field that is cut off is 13, one that breaks a rule 14.

use crate::Guid;
use std::ops::Range;

/// One extension: its pointer number, its id, and where its data stands without padding.
#[derive(Clone, Debug, PartialEq, Eq)]
pub struct Extension {
    pub pointer: u32,
    pub id: Guid,
    pub data: Range<usize>,
}

/// What a header's pointer to its extensions leads to, and the header's length.
#[derive(Clone, Debug, PartialEq, Eq)]
pub struct Extensions {
    pub pointer: u32,
    pub array: u32,
    pub items: Vec<Extension>,
    pub length: usize,
}

impl Extensions {
    /// Extension `k`.
    pub fn numbered(&self, k: usize) -> Result<Extension, u32> {
        self.items.get(k).cloned().ok_or(24)
    }
}

/// The most extensions of an array.
const MOST: usize = 32;

fn rounded_up(n: u64, to: u64) -> u64 {
    n.div_ceil(to) * to
}

struct Cursor<'a> {
    whole: usize,
    left: &'a [u8],
}

impl<'a> Cursor<'a> {
    fn bytes(&mut self, n: u64) -> Result<&'a [u8], u32> {
        if n > self.left.len() as u64 {
            return Err(13);
        }
        let (taken, left) = self.left.split_at(n as usize);
        self.left = left;
        Ok(taken)
    }

    fn number(&mut self) -> Result<u32, u32> {
        let bytes = self.bytes(4)?;
        Ok(u32::from_le_bytes(bytes.try_into().unwrap()))
    }

    /// A number that has to be this one.
    fn fixed(&mut self, value: u64) -> Result<(), u32> {
        must(u64::from(self.number()?) == value)
    }

    fn padding(&mut self, n: u64) -> Result<(), u32> {
        must(self.bytes(n)?.iter().all(|b| *b == 0))
    }

    fn place(&self) -> usize {
        self.whole - self.left.len()
    }

    /// An extension: NDR puts the maximum count of its data first; 001 rounds it to 8.
    fn extension(&mut self, pointer: u32) -> Result<Extension, u32> {
        let maximum = u64::from(self.number()?);
        let id = self.bytes(16)?.try_into().unwrap();
        let size = u64::from(self.number()?);
        must(maximum == rounded_up(size, 8))?;
        let from = self.place();
        self.bytes(size)?;
        let data = from..self.place();
        self.padding(maximum - size)?;
        Ok(Extension { pointer, id, data })
    }

    /// What the array's pointer leads to: the maximum count, the pointers, then each extension.
    fn pointed(&mut self, size: u64) -> Result<Vec<Extension>, u32> {
        let maximum = rounded_up(size, 2);
        self.fixed(maximum)?;
        let mut pointers = Vec::new();
        for _ in 0..size {
            let pointer = self.number()?;
            must(pointer != 0)?;
            pointers.push(pointer);
        }
        self.padding(4 * (maximum - size))?;
        pointers.into_iter().map(|p| self.extension(p)).collect()
    }
}

fn must(kept: bool) -> Result<(), u32> {
    if kept {
        Ok(())
    } else {
        Err(14)
    }
}

/// The extensions of the header in `s` whose pointer stands at `at`.
pub fn read(s: &[u8], at: usize) -> Result<Extensions, u32> {
    let (whole, left) = (s.len(), s.get(at..).ok_or(13u32)?);
    let mut cursor = Cursor { whole, left };
    let pointer = cursor.number()?;
    let (mut array, mut items) = (0, Vec::new());
    if pointer != 0 {
        let size = cursor.number()?;
        must(size as usize <= MOST)?;
        cursor.fixed(0)?; // reserved
        array = cursor.number()?;
        must(array != 0 || size == 0)?;
        if array != 0 {
            items = cursor.pointed(size.into())?;
        }
    }
    Ok(Extensions {
        pointer,
        array,
        items,
        length: cursor.place(),
    })
}

/// What a writer is lent: the header's and the array's pointer, of each extension four words (the two halves of its id, its pointer
/// number, the size of its data), and all data end to end.
#[derive(Clone, Copy, Debug, Default)]
pub struct Lent<'a> {
    pub pointer: u32,
    pub array: u32,
    pub entries: &'a [u64],
    pub contents: &'a [u8],
}

/// An extension to be written: the halves of its id, its pointer number, its data.
struct Item<'a> {
    id: &'a [u64],
    pointer: u32,
    data: &'a [u8],
}

impl Item<'_> {
    /// The size of the data with its padding.
    fn padded(&self) -> u64 {
        rounded_up(self.data.len() as u64, 8)
    }
}

impl<'a> Lent<'a> {
    fn items(&self) -> Result<Vec<Item<'a>>, u32> {
        let entries = self.entries.chunks_exact(4);
        must(entries.remainder().is_empty())?;
        let mut left = self.contents;
        let mut items = Vec::new();
        for words in entries {
            let pointer = u32::try_from(words[2]).unwrap_or(0);
            must(pointer != 0)?;
            must(words[3] <= left.len() as u64)?;
            let (data, rest) = left.split_at(words[3] as usize);
            let id = &words[..2];
            let item = Item { id, pointer, data };
            must(item.padded() <= u32::MAX.into())?;
            items.push(item);
            left = rest;
        }
        must(left.is_empty())?;
        Ok(items)
    }

    /// Writes `front`, then the pointer and all that it leads to, at the front of `buffer`; refuses with 14, then with 15.
    pub fn write(&self, front: &[u8], buffer: &mut [u8]) -> Result<usize, u32> {
        let items = self.items()?;
        let n = items.len();
        must(n <= MOST)?;
        must(n == 0 || self.array != 0)?;
        must(self.pointer != 0 || self.array == 0)?;
        let pairs = rounded_up(n as u64, 2) as usize;
        let behind = match (self.pointer, self.array) {
            (0, _) => 0,
            (_, 0) => 12,
            _ => {
                let each = items.iter().map(|item| 24 + item.padded() as usize);
                16 + 4 * pairs + each.sum::<usize>()
            }
        };
        let length = front.len() + 4 + behind;
        if buffer.len() < length {
            return Err(15);
        }
        let mut made = front.to_vec();
        let mut put = |n: usize| made.extend((n as u32).to_le_bytes());
        put(self.pointer as usize);
        if self.pointer != 0 {
            put(n);
            put(0);
            put(self.array as usize);
        }
        if self.array != 0 {
            put(pairs);
            items.iter().for_each(|item| put(item.pointer as usize));
            (n..pairs).for_each(|_| put(0));
            for item in items {
                made.extend((item.padded() as u32).to_le_bytes());
                made.extend(item.id.iter().flat_map(|half| half.to_le_bytes()));
                made.extend((item.data.len() as u32).to_le_bytes());
                let end = made.len() + item.padded() as usize;
                made.extend(item.data);
                made.resize(end, 0);
            }
        }
        assert_eq!(made.len(), length);
        buffer[..length].copy_from_slice(&made);
        Ok(length)
    }
}
