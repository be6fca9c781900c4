//! References that come in over several packets (document 02, request 8).

use crate::bytes::{guid_at, read_reference, u32_at, Reference};
use std::ops::Range;

/// The whole bytes as before request 5: flags 8 is 14, and object data is not looked into.
fn whole(s: &[u8]) -> Result<(Reference, Range<usize>), u32> {
    let flags = if s.len() < 24 { 0 } else { u32_at(s, 4) };
    match flags {
        8 => Err(14),
        4 => custom(s),
        _ => read_reference(s),
    }
}

fn custom(s: &[u8]) -> Result<(Reference, Range<usize>), u32> {
    if s[..4] != *b"MEOW" {
        return Err(14);
    }
    if s.len() < 48 {
        return Err(13);
    }
    let fields = Reference {
        flags: 4,
        iid: guid_at(s, 8),
        clsid: guid_at(s, 24),
        extension: u32_at(s, 40),
        size: u32_at(s, 44),
        ..Reference::default()
    };
    Ok((fields, 48..s.len()))
}

/// The fields, and the length of the list or object data, which goes to the front of the final buffer. The waiting buffer is of so
/// many bytes.
pub fn read(
    fragments: &[&[u8]],
    waiting: usize,
    last: &mut [u8],
) -> Result<(Reference, usize), u32> {
    let s = fragments.concat();
    let (fields, tail) = whole(&s)?;
    let length = tail.len();
    if length > waiting.min(last.len()) {
        return Err(15);
    }
    last[..length].copy_from_slice(&s[tail]);
    Ok((fields, length))
}
