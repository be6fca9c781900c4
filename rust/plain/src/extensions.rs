//! The extensions of a call header.

use crate::bytes::{guid_at, u32_at};
use crate::Guid;
use std::ops::Range;

/// One extension: its pointer number, its id, and where its data stands without padding.
pub struct Extension {
    pub pointer: u32,
    pub id: Guid,
    pub data: Range<usize>,
}

/// The extensions of a header that was judged, one after the other, and the header's length.
pub struct Extensions<'a> {
    s: &'a [u8],
    left: usize,
    /// Where the next one's pointer number and the next one stand.
    pointer: usize,
    at: usize,
    pub length: usize,
}

impl Iterator for Extensions<'_> {
    type Item = Extension;
    fn next(&mut self) -> Option<Extension> {
        self.left = self.left.checked_sub(1)?;
        let (s, from) = (self.s, self.at + 24);
        let found = Extension {
            pointer: u32_at(s, self.pointer),
            id: guid_at(s, self.at + 4),
            data: from..from + u32_at(s, self.at + 20) as usize,
        };
        self.pointer += 4;
        self.at = from + u32_at(s, self.at) as usize;
        Some(found)
    }
}

fn number(s: &[u8], at: usize) -> Result<u32, u32> {
    if s.len() < at + 4 {
        return Err(13);
    }
    Ok(u32_at(s, at))
}

fn must(kept: bool) -> Result<(), u32> {
    if kept {
        Ok(())
    } else {
        Err(14)
    }
}

/// The extensions of the header in `s` whose pointer stands at `at`, all judged.
fn read(s: &[u8], at: usize) -> Result<Extensions<'_>, u32> {
    let mut e = Extensions {
        s,
        left: 0,
        pointer: 0,
        at: 0,
        length: at + 4,
    };
    if number(s, at)? == 0 {
        return Ok(e);
    }
    let size = number(s, at + 4)? as usize;
    must(size <= 32)?;
    must(number(s, at + 8)? == 0)?;
    let array = number(s, at + 12)?;
    must(array != 0 || size == 0)?;
    e.length = at + 16;
    if array == 0 {
        return Ok(e);
    }
    must(number(s, at + 16)? as usize == size.next_multiple_of(2))?;
    for k in 0..size {
        must(number(s, at + 20 + 4 * k)? != 0)?;
    }
    let mut next = at + 20 + 4 * size;
    if size % 2 == 1 {
        must(number(s, next)? == 0)?;
        next += 4;
    }
    (e.left, e.pointer, e.at) = (size, at + 20, next);
    for _ in 0..size {
        next = extent_end(s, next)?;
    }
    e.length = next;
    Ok(e)
}

/// Where the extension that begins at `at` ends.
fn extent_end(s: &[u8], at: usize) -> Result<usize, u32> {
    let maximum = number(s, at)? as usize;
    if s.len() < at + 20 {
        return Err(13);
    }
    let n = number(s, at + 20)? as usize;
    must(maximum == n.next_multiple_of(8))?;
    let (data, end) = (at + 24, at + 24 + maximum);
    if s.len() < end {
        return Err(13);
    }
    must(s[data + n..end].iter().all(|b| *b == 0))?;
    Ok(end)
}

/// ORPCTHIS at the front: where its extensions are.
pub fn this(s: &[u8]) -> Result<Extensions<'_>, u32> {
    if s.len() < 32 {
        return Err(13);
    }
    if s[..2] != [5, 0] || s[3] != 0 || s[2] > 7 {
        return Err(16);
    }
    read(s, 28)
}

/// ORPCTHAT at the front: the same.
pub fn that(s: &[u8]) -> Result<Extensions<'_>, u32> {
    if s.len() < 8 {
        return Err(13);
    }
    read(s, 4)
}
