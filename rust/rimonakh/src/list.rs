//! Binding lists (DUALSTRINGARRAY): string bindings (a tower and an address), then security bindings (a service and a name).
//!
//! ```
//! use rimonakh::{list, Error};
//!
//! let bytes = list::Builder::new()
//!     .string(7, "10.1.4.20[49500]") // TCP
//!     .security(10, 0xFFFF, "RPCSS/plant-gw01") // NTLM
//!     .build()?;
//! let tcp = list::strings(&bytes)?.find(|binding| binding.tower == 7);
//! assert_eq!(tcp.map(|binding| binding.address.to_string()).as_deref(), Some("10.1.4.20[49500]"));
//! assert!(list::securities(&bytes)?.all(|binding| binding.name == "RPCSS/plant-gw01"));
//! # Ok::<(), Error>(())
//! ```

use crate::error::answered;
use crate::{Error, Result};
use alloc::vec;
use alloc::vec::Vec;
use core::fmt;
use core::iter::from_fn;
use core::ops::Range;

/// The two parts of a binding list.
#[derive(Clone, Copy, Debug, PartialEq, Eq)]
pub enum Part {
    /// The string bindings.
    Strings,
    /// The security bindings.
    Security,
}

/// A string binding of a list.
#[derive(Clone, Copy, Debug, PartialEq, Eq)]
pub struct StringBinding<'a> {
    /// The protocol, never 0.
    pub tower: u16,
    /// The address, with its endpoint where it has one.
    pub address: Text<'a>,
}

/// A security binding of a list.
#[derive(Clone, Copy, Debug, PartialEq, Eq)]
pub struct SecurityBinding<'a> {
    /// The authentication service, never 0.
    pub service: u16,
    /// The word after it, of any content; 0xFFFF is usual.
    pub reserved: u16,
    /// The principal's name.
    pub name: Text<'a>,
}

/// The text of a binding in a list's bytes, without the zero word that ends it. It is shown with U+FFFD for a unit that is half of
/// a pair.
#[derive(Clone, Copy, PartialEq, Eq)]
pub struct Text<'a>(&'a [u8]);

impl<'a> Text<'a> {
    /// Its units (UTF-16), none of which is 0.
    pub fn units(self) -> impl DoubleEndedIterator<Item = u16> + ExactSizeIterator + 'a {
        self.0.chunks_exact(2).map(|unit| word(unit, 0))
    }

    /// Its characters.
    #[inline]
    fn chars(self) -> impl Iterator<Item = char> + 'a {
        let characters = char::decode_utf16(self.units());
        characters.map(|c| c.unwrap_or(char::REPLACEMENT_CHARACTER))
    }
}

impl fmt::Display for Text<'_> {
    fn fmt(&self, f: &mut fmt::Formatter<'_>) -> fmt::Result {
        self.chars().try_for_each(|c| fmt::Write::write_char(f, c))
    }
}

impl fmt::Debug for Text<'_> {
    fn fmt(&self, f: &mut fmt::Formatter<'_>) -> fmt::Result {
        f.write_str("\"")?;
        let mut escaped = self.chars().flat_map(char::escape_debug);
        escaped.try_for_each(|c| fmt::Write::write_char(f, c))?;
        f.write_str("\"")
    }
}

impl PartialEq<str> for Text<'_> {
    fn eq(&self, other: &str) -> bool {
        self.units().eq(other.encode_utf16())
    }
}

impl PartialEq<&str> for Text<'_> {
    fn eq(&self, other: &&str) -> bool {
        *self == **other
    }
}

/// Word `k` of a binding.
fn word(binding: &[u8], k: usize) -> u16 {
    u16::from_le_bytes([binding[2 * k], binding[2 * k + 1]])
}

/// What stands in a binding behind so many words, up to its zero word.
fn text(binding: &[u8], behind: usize) -> Text<'_> {
    Text(&binding[2 * behind..binding.len() - 2])
}

/// Whether the bytes are one whole list.
#[inline]
pub fn judge(bytes: &[u8]) -> Result<()> {
    let number = archive!(rimonakh_list_answer([bytes]));
    answered(number, ())
}

/// The list at the front of the bytes; those after it are not judged.
#[inline]
pub fn front(bytes: &[u8]) -> Result<&[u8]> {
    let number = archive!(rimonakh_list_front_answer([bytes]));
    let length = archive!(rimonakh_list_front_length([bytes]));
    answered(number, &bytes[..length])
}

/// Where binding `k` of a part of a whole list stands, from its first word through its zero word.
#[inline]
pub fn locate(bytes: &[u8], part: Part, k: usize) -> Result<Range<usize>> {
    let place = match part {
        Part::Strings => archive!(rimonakh_list_string_binding([bytes], k)),
        Part::Security => archive!(rimonakh_list_security_binding([bytes], k)),
    };
    place.range()
}

/// Binding `k` of a part of a whole list.
pub fn binding(bytes: &[u8], part: Part, k: usize) -> Result<&[u8]> {
    Ok(&bytes[locate(bytes, part, k)?])
}

/// Where the bindings of a part of a whole list stand, in one pass.
#[inline]
pub fn places(bytes: &[u8], part: Part) -> Result<impl Iterator<Item = Range<usize>> + '_> {
    let start = match part {
        Part::Strings => archive!(rimonakh_list_strings([bytes])),
        Part::Security => archive!(rimonakh_list_securities([bytes])),
    };
    let (mut at, mut left) = answered(start.answer, (start.at, start.left))?;
    Ok(from_fn(move || {
        let step = match part {
            Part::Strings => archive!(rimonakh_list_next_string([bytes], at, left)),
            Part::Security => archive!(rimonakh_list_next_security([bytes], at, left)),
        };
        answered(step.answer, ()).ok()?;
        (at, left) = (step.to, step.left);
        Some(step.from..step.to)
    }))
}

/// The bindings of a part of a whole list as they stand, in one pass.
///
/// ```
/// use rimonakh::{list, Part};
///
/// let bytes = [8, 0, 7, 0, 7, 0, 97, 0, 0, 0, 8, 0, 98, 0, 0, 0, 0, 0, 0, 0];
/// let found: Vec<&[u8]> = list::bindings(&bytes, Part::Strings)?.collect();
/// assert_eq!(found, [[7, 0, 97, 0, 0, 0], [8, 0, 98, 0, 0, 0]]);
/// # Ok::<(), rimonakh::Error>(())
/// ```
#[inline]
pub fn bindings(bytes: &[u8], part: Part) -> Result<impl Iterator<Item = &[u8]>> {
    Ok(places(bytes, part)?.map(|place| &bytes[place]))
}

/// The string bindings of a whole list, decoded, in one pass.
#[inline]
pub fn strings(bytes: &[u8]) -> Result<impl Iterator<Item = StringBinding<'_>>> {
    Ok(bindings(bytes, Part::Strings)?.map(|b| StringBinding {
        tower: word(b, 0),
        address: text(b, 1),
    }))
}

/// The security bindings of a whole list, decoded, in one pass.
#[inline]
pub fn securities(bytes: &[u8]) -> Result<impl Iterator<Item = SecurityBinding<'_>>> {
    Ok(bindings(bytes, Part::Security)?.map(|b| SecurityBinding {
        service: word(b, 0),
        reserved: word(b, 1),
        name: text(b, 2),
    }))
}

/// Writes the list of string and security bindings at the front of `buffer` and keeps the rest. Answers the length. Each binding is
/// its words with its zero word; the words that end the parts are not given.
#[inline]
pub fn write(strings: &[u16], security: &[u16], buffer: &mut [u8]) -> Result<usize> {
    let r = archive!(rimonakh_list_write([strings], [security], [mut buffer]));
    answered(r.answer, r.length)
}

/// Makes a list of its bindings, in any order of the two parts.
#[derive(Clone, Debug, Default)]
pub struct Builder {
    strings: Vec<u16>,
    security: Vec<u16>,
    /// A text had a zero unit, which would end it and begin a binding of what is behind.
    zero: bool,
}

impl Builder {
    /// A list without bindings.
    pub fn new() -> Builder {
        Builder::default()
    }

    /// With one more string binding: a tower, which is not 0, and an address.
    pub fn string(mut self, tower: u16, address: &str) -> Builder {
        self.zero |= address.contains('\0');
        self.strings.push(tower);
        self.strings.extend(address.encode_utf16().chain([0]));
        self
    }

    /// With one more security binding: a service, which is not 0, the word after it and a name.
    pub fn security(mut self, service: u16, reserved: u16, name: &str) -> Builder {
        self.zero |= name.contains('\0');
        self.security.extend([service, reserved]);
        self.security.extend(name.encode_utf16().chain([0]));
        self
    }

    /// The list. Refused by 14 where a tower or service is 0, a text has a zero unit, or there are more than 65,535 words.
    pub fn build(&self) -> Result<Vec<u8>> {
        if self.zero {
            return Err(Error::Layout);
        }
        let mut bytes = vec![0; 8 + 2 * (self.strings.len() + self.security.len())];
        write(&self.strings, &self.security, &mut bytes)?;
        Ok(bytes)
    }
}

/// The list of string bindings (tower, address) and security bindings (service, the word after it, name), by a [`Builder`].
pub fn of(strings: &[(u16, &str)], security: &[(u16, u16, &str)]) -> Result<Vec<u8>> {
    let list = strings
        .iter()
        .fold(Builder::new(), |list, (tower, address)| {
            list.string(*tower, address)
        });
    let list = security.iter().fold(list, |list, (service, word, name)| {
        list.security(*service, *word, name)
    });
    list.build()
}
