//! Call headers with their extensions.
//!
//! ```
//! use rimonakh::{Error, Extension, Guid, OrpcThat};
//!
//! // a reply's header with one extension, error information
//! let id = Guid::new(0x31c, 0, 0, [0xc0, 0, 0, 0, 0, 0, 0, 0x46]);
//! let sent = [Extension { id, pointer: 0x20008, data: b"level" }];
//! let mut reply = [0; 128];
//! let length = OrpcThat { flags: 0 }.write_with(0x20000, 0x20004, &sent, &mut reply)?;
//!
//! let read = OrpcThat::read(&reply)?;
//! assert_eq!((read.extensions.count, read.length), (1, length));
//! assert_eq!(OrpcThat::extension(&reply, 0)?, sent[0]);
//! assert_eq!(OrpcThat::extension(&reply, 1), Err(Error::NoBinding));
//! assert!(OrpcThat::extensions(&reply)?.eq(sent));
//! # Ok::<(), Error>(())
//! ```

use crate::error::answered;
use crate::{ffi, Guid, Result};
use alloc::vec::Vec;
use core::iter::from_fn;

/// What a header says of its extensions: its pointer to their array, the array's pointer, and how many there are.
#[repr(C)]
#[derive(Clone, Copy, Debug, Default, PartialEq, Eq)]
pub struct Extensions {
    /// The header's pointer to the array, 0 where there are no extensions.
    pub pointer: u32,
    /// The array's pointer to the extensions.
    pub array: u32,
    /// How many there are.
    pub count: u32,
}

/// One extension: its id, its pointer number, which is not 0, and its data without padding.
#[derive(Clone, Copy, Debug, PartialEq, Eq)]
pub struct Extension<'a> {
    /// What it is.
    pub id: Guid,
    /// Its pointer number, which is not 0.
    pub pointer: u32,
    /// Its data, without padding.
    pub data: &'a [u8],
}

/// A header that was read, what it says of its extensions, and its length: the call's own bytes follow.
#[derive(Clone, Copy, Debug, PartialEq, Eq)]
pub struct Read<H> {
    /// The header.
    pub header: H,
    /// What it says of its extensions.
    pub extensions: Extensions,
    /// Its length with extensions, in bytes.
    pub length: usize,
}

impl ffi::Extension {
    fn shown(self, bytes: &[u8]) -> Result<Extension<'_>> {
        let place = answered(self.answer, self.from..self.to)?;
        Ok(Extension {
            id: self.id,
            pointer: self.pointer,
            data: &bytes[place],
        })
    }
}

impl ffi::ExtensionCursor {
    /// The extensions from here on.
    #[inline]
    fn walk(self, bytes: &[u8]) -> Result<impl Iterator<Item = Extension<'_>>> {
        let start = (self.pointer, self.at, self.left);
        let (mut pointer, mut at, mut left) = answered(self.answer, start)?;
        Ok(from_fn(move || {
            let step = archive!(rimonakh_next_extension([bytes], pointer, at, left));
            let found = step.extension.shown(bytes).ok()?;
            (pointer, at, left) = (step.pointer, step.at, step.left);
            Some(found)
        }))
    }
}

/// The words and the data of extensions, as the archive takes them.
fn lent(extensions: &[Extension]) -> (Vec<u64>, Vec<u8>) {
    let words = |e: &Extension| {
        let (low, high) = e.id.halves();
        [low, high, e.pointer.into(), e.data.len() as u64]
    };
    let contents = extensions.iter().flat_map(|e| e.data).copied();
    (
        extensions.iter().flat_map(words).collect(),
        contents.collect(),
    )
}

/// The header of a call. Its major version is 5.
#[repr(C)]
#[derive(Clone, Copy, Debug, PartialEq, Eq)]
pub struct OrpcThis {
    /// The minor version, at most 7.
    pub minor: u16,
    /// The flags.
    pub flags: u32,
    /// The causality id.
    pub causality: Guid,
}

impl OrpcThis {
    /// The size of a header without extensions.
    pub const SIZE: usize = 32;

    /// Reads the header at the front of `bytes`.
    pub fn read(bytes: &[u8]) -> Result<Read<OrpcThis>> {
        let r = archive!(rimonakh_this_read([bytes]));
        let read = Read {
            header: r.header,
            extensions: r.extensions,
            length: r.length,
        };
        answered(r.answer, read)
    }

    /// Extension `k` of the header at the front of `bytes`.
    #[inline]
    pub fn extension(bytes: &[u8], k: usize) -> Result<Extension<'_>> {
        let r = archive!(rimonakh_this_extension([bytes], k));
        r.shown(bytes)
    }

    /// The extensions of the header at the front of `bytes`, in one pass.
    #[inline]
    pub fn extensions(bytes: &[u8]) -> Result<impl Iterator<Item = Extension<'_>>> {
        let start = archive!(rimonakh_this_extensions([bytes]));
        start.walk(bytes)
    }

    /// Writes the header without extensions at the front of `buffer` and keeps the rest.
    #[inline]
    pub fn write(&self, buffer: &mut [u8]) -> Result<()> {
        let number = archive!(rimonakh_this_write(
            self.minor, self.flags, {self.causality}, [mut buffer]
        ));
        answered(number, ())
    }

    /// Writes the header with extensions at the front of `buffer` and keeps the rest: the header's pointer, the array's, and at most
    /// 32 extensions. Answers the length.
    #[inline]
    pub fn write_with(
        &self,
        pointer: u32,
        array: u32,
        extensions: &[Extension],
        buffer: &mut [u8],
    ) -> Result<usize> {
        let (entries, contents) = lent(extensions);
        let r = archive!(rimonakh_this_write_extensions(
            self.minor, self.flags, {self.causality}, pointer, array, [&entries], [&contents], [mut buffer]
        ));
        answered(r.answer, r.length)
    }
}

/// The header of a reply.
#[repr(C)]
#[derive(Clone, Copy, Debug, PartialEq, Eq)]
pub struct OrpcThat {
    /// The flags.
    pub flags: u32,
}

impl OrpcThat {
    /// The size of a header without extensions.
    pub const SIZE: usize = 8;

    /// Reads the header at the front of `bytes`.
    pub fn read(bytes: &[u8]) -> Result<Read<OrpcThat>> {
        let r = archive!(rimonakh_that_read([bytes]));
        let read = Read {
            header: r.header,
            extensions: r.extensions,
            length: r.length,
        };
        answered(r.answer, read)
    }

    /// Extension `k` of the header at the front of `bytes`.
    #[inline]
    pub fn extension(bytes: &[u8], k: usize) -> Result<Extension<'_>> {
        let r = archive!(rimonakh_that_extension([bytes], k));
        r.shown(bytes)
    }

    /// The extensions of the header at the front of `bytes`, in one pass.
    #[inline]
    pub fn extensions(bytes: &[u8]) -> Result<impl Iterator<Item = Extension<'_>>> {
        let start = archive!(rimonakh_that_extensions([bytes]));
        start.walk(bytes)
    }

    /// Writes the header without extensions at the front of `buffer` and keeps the rest.
    #[inline]
    pub fn write(&self, buffer: &mut [u8]) -> Result<()> {
        let number = archive!(rimonakh_that_write(self.flags, [mut buffer]));
        answered(number, ())
    }

    /// Writes the header with extensions at the front of `buffer` and keeps the rest: the header's pointer, the array's, and at most
    /// 32 extensions. Answers the length.
    #[inline]
    pub fn write_with(
        &self,
        pointer: u32,
        array: u32,
        extensions: &[Extension],
        buffer: &mut [u8],
    ) -> Result<usize> {
        let (entries, contents) = lent(extensions);
        let r = archive!(rimonakh_that_write_extensions(
            self.flags, pointer, array, [&entries], [&contents], [mut buffer]
        ));
        answered(r.answer, r.length)
    }
}
