//! References, binding lists and call headers; MS-DCOM, section 2.2.18, for what document 02 adds to references.

use crate::extensions::{self, Extensions, Lent};
use crate::{contexts, Guid};
use std::ops::Range;

fn u16_at(s: &[u8], at: usize) -> u16 {
    u16::from_le_bytes(s[at..at + 2].try_into().unwrap())
}

pub(crate) fn u32_at(s: &[u8], at: usize) -> u32 {
    u32::from_le_bytes(s[at..at + 4].try_into().unwrap())
}

fn u64_at(s: &[u8], at: usize) -> u64 {
    u64::from_le_bytes(s[at..at + 8].try_into().unwrap())
}

pub(crate) fn guid_at(s: &[u8], at: usize) -> Guid {
    s[at..at + 16].try_into().unwrap()
}

/// Writes `made` at the front of `buffer` and keeps the rest, or refuses with 15.
pub(crate) fn put(made: &[u8], buffer: &mut [u8]) -> Result<usize, u32> {
    if buffer.len() < made.len() {
        return Err(15);
    }
    buffer[..made.len()].copy_from_slice(made);
    Ok(made.len())
}

/// Bytes that are read from the front: a field that is not all there is 13.
pub(crate) struct Reading<'a> {
    bytes: &'a [u8],
    at: usize,
}

impl<'a> Reading<'a> {
    pub(crate) fn new(bytes: &'a [u8]) -> Reading<'a> {
        Reading { bytes, at: 0 }
    }

    fn rest(&self) -> &'a [u8] {
        &self.bytes[self.at..]
    }

    /// Where the next `n` bytes stand, which are passed over.
    pub(crate) fn skip(&mut self, n: usize) -> Result<Range<usize>, u32> {
        if self.rest().len() < n {
            return Err(13);
        }
        self.at += n;
        Ok(self.at - n..self.at)
    }

    pub(crate) fn u32(&mut self) -> Result<u32, u32> {
        Ok(u32_at(self.bytes, self.skip(4)?.start))
    }

    pub(crate) fn guid(&mut self) -> Result<Guid, u32> {
        Ok(guid_at(self.bytes, self.skip(16)?.start))
    }

    /// Two bytes of a version, which are fixed.
    pub(crate) fn version(&mut self, fixed: u16) -> Result<(), u32> {
        let read = u16_at(self.bytes, self.skip(2)?.start);
        (read == fixed).then_some(()).ok_or(14)
    }

    /// A number that is one of these, or 14.
    pub(crate) fn one_of(&mut self, these: &[u32]) -> Result<u32, u32> {
        let read = self.u32()?;
        these.contains(&read).then_some(read).ok_or(14)
    }

    /// Nothing is left over, or 14.
    pub(crate) fn end(&self) -> Result<(), u32> {
        self.rest().is_empty().then_some(()).ok_or(14)
    }
}

// ---- binding lists

#[derive(Clone, Copy, Debug, PartialEq, Eq)]
pub enum Part {
    Strings,
    Security,
}

/// The bindings of a list, as places among its bytes.
#[derive(Clone, Debug, PartialEq, Eq)]
pub struct List {
    pub length: usize,
    pub strings: Vec<Range<usize>>,
    pub security: Vec<Range<usize>>,
}

/// The bindings of one part, in words: bindings in a row, then one zero word, which is the last. A binding has `head` words
/// before its text, the first of them not zero; the text goes up to and with a zero word.
fn part(words: &[u16], head: usize) -> Option<Vec<Range<usize>>> {
    let mut found = Vec::new();
    let mut at = 0;
    while *words.get(at)? != 0 {
        let mut end = at + head;
        while *words.get(end)? != 0 {
            end += 1;
        }
        found.push(at..end + 1);
        at = end + 1;
    }
    (at + 1 == words.len()).then_some(found)
}

/// Writes the list of string and security bindings in a row, each with its zero word; the parts' last words are not given.
pub fn write_list(strings: &[u16], security: &[u16], buffer: &mut [u8]) -> Result<usize, u32> {
    let ended = |words: &[u16]| [words, &[0]].concat();
    let (strings, security) = (ended(strings), ended(security));
    let both = part(&strings, 1).zip(part(&security, 2));
    let count = u16::try_from(strings.len() + security.len());
    let (Some(_), Ok(n)) = (both, count) else {
        return Err(14);
    };
    let words = [&[n, strings.len() as u16], &strings[..], &security[..]].concat();
    let made: Vec<u8> = words.iter().flat_map(|w| w.to_le_bytes()).collect();
    put(&made, buffer)
}

/// The list at the front of the bytes.
pub fn front_list(s: &[u8]) -> Result<List, u32> {
    if s.len() < 4 {
        return Err(13);
    }
    let n = u16_at(s, 0) as usize;
    let split = u16_at(s, 2) as usize;
    let length = 4 + 2 * n;
    if s.len() < length {
        return Err(13);
    }
    if n == 0 && split == 0 {
        // two empty parts without a word
        return Ok(List {
            length,
            strings: vec![],
            security: vec![],
        });
    }
    if split > n {
        return Err(14);
    }
    let words: Vec<u16> = (0..n).map(|i| u16_at(s, 4 + 2 * i)).collect();
    let places = |found: Vec<Range<usize>>, first: usize| {
        let byte = |word: usize| 4 + 2 * (first + word);
        found
            .into_iter()
            .map(|r| byte(r.start)..byte(r.end))
            .collect()
    };
    let strings = part(&words[..split], 1).ok_or(14u32)?;
    let security = part(&words[split..], 2).ok_or(14u32)?;
    Ok(List {
        length,
        strings: places(strings, 0),
        security: places(security, split),
    })
}

/// The bytes as one whole list.
pub fn list(s: &[u8]) -> Result<List, u32> {
    let found = front_list(s)?;
    if found.length < s.len() {
        return Err(14);
    }
    Ok(found)
}

impl List {
    fn numbered(&self, part: Part, k: usize) -> Result<Range<usize>, u32> {
        let bindings = match part {
            Part::Strings => &self.strings,
            Part::Security => &self.security,
        };
        bindings.get(k).cloned().ok_or(24)
    }
}

/// The list with only the string bindings whose tower is among the protocols, and the whole security part.
pub fn filtered_list(s: &[u8], protocols: &[u16]) -> Vec<u8> {
    let Ok(found) = list(s) else { return vec![] };
    if s == [0; 4] {
        return s.to_vec();
    }
    let mut strings: Vec<u8> = Vec::new();
    for place in found.strings {
        if protocols.contains(&u16_at(s, place.start)) {
            strings.extend(&s[place]);
        }
    }
    strings.extend([0, 0]);
    let security = &s[4 + 2 * u16_at(s, 2) as usize..];
    let words = |bytes: usize| (bytes / 2) as u16;
    let mut made = words(strings.len() + security.len()).to_le_bytes().to_vec();
    made.extend(words(strings.len()).to_le_bytes());
    made.extend(strings);
    made.extend(security);
    made
}

/// Where binding `k` of a part of a whole list stands.
pub fn list_binding(s: &[u8], part: Part, k: usize) -> Result<Range<usize>, u32> {
    list(s)?.numbered(part, k)
}

// ---- references

/// The fields of a reference; those that its form does not have are zero.
#[derive(Clone, Copy, Debug, Default, PartialEq, Eq)]
pub struct Reference {
    pub flags: u32,
    pub iid: Guid,
    pub block_flags: u32,
    pub public: u32,
    pub oxid: u64,
    pub oid: u64,
    pub ipid: Guid,
    pub clsid: Guid,
    pub extension: u32,
    pub size: u32,
    /// The identifier of an extended reference's element.
    pub element: Guid,
}

/// "MEOW".
const SIGNATURE: [u8; 4] = [0x4D, 0x45, 0x4F, 0x57];

/// Before the list and before the elements of an extended reference (MS-DCOM, section 2.2.18.7).
const EXTENDED_SIGNATURE: u32 = 0x4E53_5956;

/// The deepest reference, where the outermost is depth 1.
const DEEPEST: usize = 8;

/// The size of the fixed fields of the form that flags name. Of an extended reference these are block and first signature.
fn fixed_size(flags: u32) -> Option<usize> {
    match flags {
        1 => Some(24 + 40),
        2 => Some(24 + 40 + 16),
        4 => Some(24 + 16 + 4 + 4),
        8 => Some(24 + 40 + 4),
        _ => None,
    }
}

/// A reference whose layout is right, and where its parts stand.
struct Parsed {
    fields: Reference,
    tail: Range<usize>,
    /// The data of each element and of each property of a context.
    elements: Vec<Range<usize>>,
    properties: Vec<Range<usize>>,
    /// Whether an OXID, OID or IPID in it, or in a reference inside it, is nil.
    nil: bool,
}

/// A reference of this depth: all of 13, 14 and 21.
fn parse(s: &[u8], depth: usize) -> Result<Parsed, u32> {
    if depth > DEEPEST {
        return Err(21);
    }
    if s.len() < 24 {
        return Err(13);
    }
    if s[..4] != SIGNATURE {
        return Err(14);
    }
    let flags = u32_at(s, 4);
    let start = fixed_size(flags).ok_or(14u32)?;
    if s.len() < start {
        return Err(13);
    }
    let mut found = Parsed {
        fields: Reference {
            flags,
            iid: guid_at(s, 8),
            ..Reference::default()
        },
        tail: start..s.len(),
        elements: vec![],
        properties: vec![],
        nil: false,
    };
    let r = &mut found.fields;
    if flags == 4 {
        r.clsid = guid_at(s, 24);
        r.extension = u32_at(s, 40);
        r.size = u32_at(s, 44);
        if r.clsid == contexts::MARSHALER {
            let moved = |p: &contexts::Placed| start + p.1.start..start + p.1.end;
            let (_, properties) = contexts::context(&s[start..])?;
            found.properties = properties.iter().map(moved).collect();
        }
        return Ok(found);
    }
    r.block_flags = u32_at(s, 24);
    r.public = u32_at(s, 28);
    r.oxid = u64_at(s, 32);
    r.oid = u64_at(s, 40);
    r.ipid = guid_at(s, 48);
    found.nil = r.oxid == 0 || r.oid == 0 || r.ipid == [0; 16];
    match flags {
        1 => drop(list(&s[start..])?),
        2 => {
            r.clsid = guid_at(s, 64);
            list(&s[start..])?;
        }
        _ => elements(s, depth, &mut found)?,
    }
    Ok(found)
}

/// What an extended reference has after its block: signature, list, count, signature and one element, whose data may be a
/// reference of the next depth.
fn elements(s: &[u8], depth: usize, found: &mut Parsed) -> Result<(), u32> {
    let mut reading = Reading { bytes: s, at: 64 };
    reading.one_of(&[EXTENDED_SIGNATURE])?;
    let length = front_list(reading.rest())?.length;
    found.tail = reading.skip(length)?;
    reading.one_of(&[1])?; // the number of elements
    reading.one_of(&[EXTENDED_SIGNATURE])?;
    let (data, padding) = element(&mut reading, &mut found.fields)?;
    if s[data.clone()].starts_with(&SIGNATURE) {
        let inside = parse(&s[data.clone()], depth + 1)?;
        found.nil |= inside.nil;
    }
    found.elements.push(data);
    if s[padding].iter().any(|b| *b != 0) {
        return Err(14);
    }
    reading.end()
}

/// Where the data of an element and its padding stand.
fn element(s: &mut Reading, r: &mut Reference) -> Result<(Range<usize>, Range<usize>), u32> {
    r.element = s.guid()?;
    if r.element == [0; 16] {
        return Err(14);
    }
    let size = s.u32()? as u64;
    if size == 0 {
        return Err(14);
    }
    let rounded = s.u32()? as u64;
    if rounded != size.next_multiple_of(8) {
        return Err(14);
    }
    let all = s.skip(rounded as usize)?;
    let end = all.start + size as usize;
    Ok((all.start..end, end..all.end))
}

/// The outermost reference; 22 stands after all else.
fn outermost(s: &[u8]) -> Result<Parsed, u32> {
    let found = parse(s, 1)?;
    if found.nil {
        return Err(22);
    }
    Ok(found)
}

/// Reads a reference: its fields, and where its list or object data stands.
pub fn read_reference(s: &[u8]) -> Result<(Reference, Range<usize>), u32> {
    let found = outermost(s)?;
    Ok((found.fields, found.tail))
}

/// Where binding `k` of a part of a reference's list stands; a custom reference has no list.
pub fn reference_binding(s: &[u8], part: Part, k: usize) -> Result<Range<usize>, u32> {
    let (r, tail) = read_reference(s)?;
    if r.flags == 4 {
        return Err(24);
    }
    let place = list(&s[tail.clone()])?.numbered(part, k)?;
    Ok(tail.start + place.start..tail.start + place.end)
}

/// Where the data of element `k` of a reference stands.
pub fn reference_element(s: &[u8], k: usize) -> Result<Range<usize>, u32> {
    outermost(s)?.elements.get(k).cloned().ok_or(24)
}

/// Where the data of property `k` of the context in a reference stands.
pub fn reference_property(s: &[u8], k: usize) -> Result<Range<usize>, u32> {
    outermost(s)?.properties.get(k).cloned().ok_or(24)
}

/// Writes a reference with its list or object data, and the data of its element. The list is judged by itself; then what could
/// not be read is refused.
pub fn write_reference(
    r: &Reference,
    tail: &[u8],
    data: &[u8],
    buffer: &mut [u8],
) -> Result<usize, u32> {
    fixed_size(r.flags).ok_or(14u32)?;
    if r.flags != 4 {
        list(tail)?;
    }
    let mut made = SIGNATURE.to_vec();
    made.extend(r.flags.to_le_bytes());
    made.extend(r.iid);
    if r.flags == 4 {
        made.extend(r.clsid);
        made.extend(r.extension.to_le_bytes());
        made.extend(r.size.to_le_bytes());
    } else {
        made.extend(r.block_flags.to_le_bytes());
        made.extend(r.public.to_le_bytes());
        made.extend(r.oxid.to_le_bytes());
        made.extend(r.oid.to_le_bytes());
        made.extend(r.ipid);
    }
    if r.flags == 2 {
        made.extend(r.clsid);
    }
    if r.flags == 8 {
        made.extend(EXTENDED_SIGNATURE.to_le_bytes());
    }
    made.extend(tail);
    if r.flags == 8 {
        let rounded = u32::try_from(data.len().next_multiple_of(8)).map_err(|_| 14u32)?;
        made.extend(1u32.to_le_bytes());
        made.extend(EXTENDED_SIGNATURE.to_le_bytes());
        made.extend(r.element);
        made.extend((data.len() as u32).to_le_bytes());
        made.extend(rounded.to_le_bytes());
        made.extend(data);
        made.resize(made.len() + rounded as usize - data.len(), 0);
    }
    outermost(&made)?;
    put(&made, buffer)
}

// ---- call headers

#[derive(Clone, Copy, Debug, Default, PartialEq, Eq)]
pub struct OrpcThis {
    pub minor: u16,
    pub flags: u32,
    pub causality: Guid,
}

pub fn read_this(s: &[u8]) -> Result<(OrpcThis, Extensions), u32> {
    if s.len() < 32 {
        return Err(13);
    }
    if u16_at(s, 0) != 5 || u16_at(s, 2) > 7 {
        return Err(16);
    }
    let found = extensions::read(s, 28)?;
    let header = OrpcThis {
        minor: u16_at(s, 2),
        flags: u32_at(s, 4),
        causality: guid_at(s, 12),
    };
    Ok((header, found))
}

pub fn write_this(h: &OrpcThis, lent: &Lent, buffer: &mut [u8]) -> Result<usize, u32> {
    if h.minor > 7 {
        return Err(16);
    }
    let mut made = vec![5, 0];
    made.extend(h.minor.to_le_bytes());
    made.extend(h.flags.to_le_bytes());
    made.extend([0; 4]);
    made.extend(h.causality);
    lent.write(&made, buffer)
}

/// The flags of a reply's header, and its extensions.
pub fn read_that(s: &[u8]) -> Result<(u32, Extensions), u32> {
    let found = extensions::read(s, 4)?;
    Ok((u32_at(s, 0), found))
}

pub fn write_that(flags: u32, lent: &Lent, buffer: &mut [u8]) -> Result<usize, u32> {
    lent.write(&flags.to_le_bytes(), buffer)
}
