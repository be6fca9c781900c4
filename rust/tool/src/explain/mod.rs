//! Where bytes are refused, and by which rule. The library answers a number alone; these walks go over the bytes in the order of the
//! definitions. They are not proved: what they say is shown only where they come to the library's own number.

pub mod lists;
pub mod recordings;
pub mod references;
pub mod snapshots;

use rimonakh::Error;
use std::fmt::Display;

/// A refusal: its number, the byte at which it is seen, and the rule that is broken there.
#[derive(Clone, Debug, PartialEq, Eq)]
pub struct Fault {
    pub number: u32,
    pub at: usize,
    pub rule: String,
}

impl Fault {
    /// The fault, said of what it is in.
    fn within(self, what: &str) -> Fault {
        Fault {
            rule: format!("in {what}: {}", self.rule),
            ..self
        }
    }

    /// The fault where it has the library's number.
    pub fn agreeing(walked: Result<(), Fault>, refusal: Error) -> Option<Fault> {
        walked.err().filter(|f| f.number == refusal.number())
    }
}

pub type Walked<T> = Result<T, Fault>;

/// Bytes that are read from the front. Places are those of the whole input.
#[derive(Clone, Copy, Debug)]
pub struct Walk<'a> {
    bytes: &'a [u8],
    /// The place of the first of the bytes.
    base: usize,
    at: usize,
    /// The numbers of a field that is cut, and of a broken rule.
    short: u32,
    broken: u32,
}

impl<'a> Walk<'a> {
    pub fn new(bytes: &'a [u8], short: Error, broken: Error) -> Walk<'a> {
        Walk {
            bytes,
            base: 0,
            at: 0,
            short: short.number(),
            broken: broken.number(),
        }
    }

    /// The walk of bytes that begin at a place of the whole input.
    fn inside(&self, bytes: &'a [u8], place: usize) -> Walk<'a> {
        Walk {
            bytes,
            base: place,
            at: 0,
            ..*self
        }
    }

    /// The place of the next byte.
    fn place(&self) -> usize {
        self.base + self.at
    }

    fn rest(&self) -> &'a [u8] {
        &self.bytes[self.at..]
    }

    fn fault<T>(&self, at: usize, rule: impl Into<String>) -> Walked<T> {
        let (number, rule) = (self.broken, rule.into());
        Err(Fault { number, at, rule })
    }

    /// The next `n` bytes.
    fn take(&mut self, n: u64, what: impl Display) -> Walked<&'a [u8]> {
        let left = self.rest();
        match usize::try_from(n).ok().and_then(|n| left.get(..n)) {
            Some(taken) => {
                self.at += taken.len();
                Ok(taken)
            }
            None => Err(Fault {
                number: self.short,
                at: self.place(),
                rule: format!("{what}: {n} bytes are needed, {} are left", left.len()),
            }),
        }
    }

    fn array<const N: usize>(&mut self, what: impl Display) -> Walked<[u8; N]> {
        let taken = self.take(N as u64, what)?;
        Ok(std::array::from_fn(|k| taken[k]))
    }

    fn u16(&mut self, what: impl Display) -> Walked<u16> {
        Ok(u16::from_le_bytes(self.array(what)?))
    }

    fn u32(&mut self, what: impl Display) -> Walked<u32> {
        Ok(u32::from_le_bytes(self.array(what)?))
    }

    fn u64(&mut self, what: impl Display) -> Walked<u64> {
        Ok(u64::from_le_bytes(self.array(what)?))
    }

    /// A number that is fixed.
    fn fixed(&mut self, value: u32, what: impl Display) -> Walked<()> {
        let at = self.place();
        match self.u32(&what)? {
            found if found == value => Ok(()),
            found => self.fault(at, format!("{what} is {found:#x}, not {value:#x}")),
        }
    }

    /// Nothing is left.
    fn end(&self, what: impl Display) -> Walked<()> {
        match self.rest().len() {
            0 => Ok(()),
            n => {
                let left = crate::show::many(n, "byte");
                self.fault(
                    self.place(),
                    format!("{what} ends here, with {left} left over"),
                )
            }
        }
    }
}
