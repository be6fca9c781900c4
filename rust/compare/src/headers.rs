//! Call headers with their extensions, proper and damaged: both sides behind one trait, and random headers compared.

use crate::bytes::{guid, plain_guid, plain_same, same, same_written};
use crate::generate::damage;
use crate::model_side::Model;
use crate::random::Random;
use crate::subject::Library;
use crate::tally::Tally;
use model::bytes::{self as m, OrpcThis};
use model::extensions::{Extension, Extensions, Lent};
use rimonakh as r;

pub type Answer<T> = Result<T, u32>;

#[derive(Clone, Copy, Debug, PartialEq, Eq)]
pub enum Kind {
    This,
    That,
}

impl Kind {
    /// Where the pointer to the extensions stands.
    pub fn pointer(self) -> usize {
        match self {
            Kind::This => 28,
            Kind::That => 4,
        }
    }
}

/// A header that was read; a reply's has flags alone.
#[derive(Clone, Copy, Debug, Default, PartialEq, Eq)]
pub struct Read {
    pub header: OrpcThis,
    pub pointer: u32,
    pub array: u32,
    pub count: usize,
    pub length: usize,
}

pub trait Headers {
    fn read(kind: Kind, s: &[u8]) -> Answer<Read>;
    fn extension(kind: Kind, s: &[u8], k: usize) -> Answer<Extension>;
    fn write_plain(kind: Kind, h: &OrpcThis, buffer: &mut [u8]) -> Answer<()>;
    fn write(kind: Kind, h: &OrpcThis, lent: &Lent, buffer: &mut [u8]) -> Answer<usize>;
}

fn model_read(kind: Kind, s: &[u8]) -> Answer<(OrpcThis, Extensions)> {
    match kind {
        Kind::This => m::read_this(s),
        Kind::That => {
            let (flags, found) = m::read_that(s)?;
            let header = OrpcThis {
                flags,
                ..OrpcThis::default()
            };
            Ok((header, found))
        }
    }
}

impl Headers for Model {
    fn read(kind: Kind, s: &[u8]) -> Answer<Read> {
        let (header, found) = model_read(kind, s)?;
        Ok(Read {
            header,
            pointer: found.pointer,
            array: found.array,
            count: found.items.len(),
            length: found.length,
        })
    }
    fn extension(kind: Kind, s: &[u8], k: usize) -> Answer<Extension> {
        model_read(kind, s)?.1.numbered(k)
    }
    fn write_plain(kind: Kind, h: &OrpcThis, buffer: &mut [u8]) -> Answer<()> {
        Model::write(kind, h, &Lent::default(), buffer).map(|_| ())
    }
    fn write(kind: Kind, h: &OrpcThis, lent: &Lent, buffer: &mut [u8]) -> Answer<usize> {
        match kind {
            Kind::This => m::write_this(h, lent, buffer),
            Kind::That => m::write_that(h.flags, lent, buffer),
        }
    }
}

fn call_header(h: &OrpcThis) -> r::OrpcThis {
    r::OrpcThis {
        minor: h.minor,
        flags: h.flags,
        causality: r::Guid(h.causality),
    }
}

fn reply_header(h: &OrpcThis) -> r::OrpcThat {
    r::OrpcThat { flags: h.flags }
}

fn numbered<T>(answer: Result<T, r::Error>) -> Answer<T> {
    answer.map_err(r::Error::number)
}

fn library_extension(kind: Kind, s: &[u8], k: usize) -> Answer<r::Extension<'_>> {
    numbered(match kind {
        Kind::This => r::OrpcThis::extension(s, k),
        Kind::That => r::OrpcThat::extension(s, k),
    })
}

/// All of them, in one pass.
fn library_extensions(kind: Kind, s: &[u8]) -> Answer<Vec<Extension>> {
    let place = |x| placed(s, x);
    numbered(match kind {
        Kind::This => r::OrpcThis::extensions(s).map(|all| all.map(place).collect()),
        Kind::That => r::OrpcThat::extensions(s).map(|all| all.map(place).collect()),
    })
}

/// An extension with the place of its data in `s`.
fn placed(s: &[u8], x: r::Extension) -> Extension {
    let from = x.data.as_ptr() as usize - s.as_ptr() as usize;
    Extension {
        pointer: x.pointer,
        id: x.id.0,
        data: from..from + x.data.len(),
    }
}

impl Headers for Library {
    fn read(kind: Kind, s: &[u8]) -> Answer<Read> {
        let (header, x, length) = match kind {
            Kind::This => {
                let read = numbered(r::OrpcThis::read(s))?;
                let header = OrpcThis {
                    minor: read.header.minor,
                    flags: read.header.flags,
                    causality: read.header.causality.0,
                };
                (header, read.extensions, read.length)
            }
            Kind::That => {
                let read = numbered(r::OrpcThat::read(s))?;
                let header = OrpcThis {
                    flags: read.header.flags,
                    ..OrpcThis::default()
                };
                (header, read.extensions, read.length)
            }
        };
        Ok(Read {
            header,
            pointer: x.pointer,
            array: x.array,
            count: x.count as usize,
            length,
        })
    }
    fn extension(kind: Kind, s: &[u8], k: usize) -> Answer<Extension> {
        Ok(placed(s, library_extension(kind, s, k)?))
    }
    fn write_plain(kind: Kind, h: &OrpcThis, buffer: &mut [u8]) -> Answer<()> {
        numbered(match kind {
            Kind::This => call_header(h).write(buffer),
            Kind::That => reply_header(h).write(buffer),
        })
    }
    fn write(kind: Kind, h: &OrpcThis, lent: &Lent, buffer: &mut [u8]) -> Answer<usize> {
        let half = |at: usize| u64::from_le_bytes(h.causality[at..at + 8].try_into().unwrap());
        let (entries, contents) = (lent.entries, lent.contents);
        // SAFETY: each pointer and length are of one slice, and the slices do not overlap.
        let w = unsafe {
            match kind {
                Kind::This => r::ffi::rimonakh_this_write_extensions(
                    h.minor,
                    h.flags,
                    half(0),
                    half(8),
                    lent.pointer,
                    lent.array,
                    entries.as_ptr(),
                    entries.len(),
                    contents.as_ptr(),
                    contents.len(),
                    buffer.as_mut_ptr(),
                    buffer.len(),
                ),
                Kind::That => r::ffi::rimonakh_that_write_extensions(
                    h.flags,
                    lent.pointer,
                    lent.array,
                    entries.as_ptr(),
                    entries.len(),
                    contents.as_ptr(),
                    contents.len(),
                    buffer.as_mut_ptr(),
                    buffer.len(),
                ),
            }
        };
        match w.answer {
            0 => Ok(w.length),
            number => {
                assert_eq!(w.length, 0, "a refusal answers zero");
                Err(number)
            }
        }
    }
}

// ---- headers made field by field

/// One extension's fields, as they are sent.
#[derive(Clone, Debug)]
pub struct MadeExtension {
    pub pointer: u32,
    pub maximum: u32,
    pub id: model::Guid,
    pub size: u32,
    pub data: Vec<u8>,
}

/// The fields from a header's pointer on, as they are sent.
#[derive(Clone, Debug)]
pub struct Made {
    pub pointer: u32,
    pub size: u32,
    pub reserved: u32,
    pub array: u32,
    pub maximum: u32,
    pub rounding: Vec<u32>,
    pub extensions: Vec<MadeExtension>,
}

impl Made {
    /// Extensions with these ids and data, by the rules.
    pub fn proper(items: &[(model::Guid, Vec<u8>)]) -> Made {
        let n = items.len() as u32;
        let made = |(i, (id, data)): (usize, &(model::Guid, Vec<u8>))| {
            let size = data.len() as u32;
            let maximum = (size + 7) & !7;
            let mut data = data.clone();
            data.resize(maximum as usize, 0);
            MadeExtension {
                pointer: 0x0002_0008 + 4 * i as u32,
                maximum,
                id: *id,
                size,
                data,
            }
        };
        Made {
            pointer: 0x0002_0000,
            size: n,
            reserved: 0,
            array: 0x0002_0004,
            maximum: (n + 1) & !1,
            rounding: vec![0; (n % 2) as usize],
            extensions: items.iter().enumerate().map(made).collect(),
        }
    }

    pub fn bytes(&self) -> Vec<u8> {
        let mut numbers = vec![self.pointer];
        if self.pointer != 0 {
            numbers.extend([self.size, self.reserved, self.array]);
        }
        let pointed = self.pointer != 0 && self.array != 0;
        if pointed {
            numbers.push(self.maximum);
            numbers.extend(self.extensions.iter().map(|e| e.pointer));
            numbers.extend(&self.rounding);
        }
        let mut bytes: Vec<u8> = numbers.iter().flat_map(|n| n.to_le_bytes()).collect();
        for e in self.extensions.iter().filter(|_| pointed) {
            bytes.extend(e.maximum.to_le_bytes());
            bytes.extend(e.id);
            bytes.extend(e.size.to_le_bytes());
            bytes.extend(&e.data);
        }
        bytes
    }

    /// Breaks a field, or leaves it proper in another way.
    fn change(&mut self, random: &mut Random) {
        let off = random.pick(&[1, 2, 8, u32::MAX, u32::MAX - 1, u32::MAX - 7]);
        match random.below(12) {
            0 => self.pointer = 0,
            1 => self.array = 0,
            2 => self.size = self.size.wrapping_add(off),
            3 => self.reserved = off,
            4 => self.maximum = self.maximum.wrapping_add(off),
            5 => self.rounding.iter_mut().for_each(|p| *p = off),
            6 => self.size = 33,
            _ if self.extensions.is_empty() => {}
            place => {
                let n = self.extensions.len();
                let e = &mut self.extensions[random.below(n)];
                let last = e.data.len().wrapping_sub(1);
                match place {
                    7 => e.pointer = 0,
                    8 => e.maximum = e.maximum.wrapping_add(off),
                    9 => e.size = e.size.wrapping_add(off),
                    10 => (e.size, e.maximum) = random.pick(&[(u32::MAX - 6, 0), (u32::MAX, 0)]),
                    _ if last < e.data.len() => e.data[last] ^= 1,
                    _ => {}
                }
            }
        }
    }
}

/// A number of extensions, most often small.
fn count(random: &mut Random) -> usize {
    random.pick(&[0, 1, 1, 2, 2, 3, 4, 5, 31, 32, 33])
}

fn data(random: &mut Random) -> Vec<u8> {
    let n = random.pick(&[0, 0, 1, 3, 7, 8, 9, 15, 16, 17, 40]);
    random.bytes(n)
}

/// A header, bytes of the call behind it, now and then with a broken field.
pub fn header(random: &mut Random, kind: Kind) -> Vec<u8> {
    let mut bytes = match kind {
        Kind::This => {
            let mut front = vec![5, 0, random.below(9) as u8, 0];
            front.extend(random.bytes(24));
            front
        }
        Kind::That => random.bytes(4),
    };
    if random.once_in(4) {
        bytes.extend([0; 4]);
    } else {
        let n = count(random);
        let items: Vec<_> = (0..n).map(|_| (guid(random), data(random))).collect();
        let mut made = Made::proper(&items);
        if n == 0 && random.once_in(2) {
            made.array = 0;
        }
        if random.once_in(3) {
            made.change(random);
        }
        bytes.extend(made.bytes());
    }
    let after = random.pick(&[0, 0, 1, 4, 9]);
    bytes.extend(random.bytes(after));
    bytes
}

/// What is read of the bytes, each extension, and what is written back of them.
pub fn check(kind: Kind, s: &[u8], random: &mut Random, tally: &mut Tally) -> Result<(), String> {
    let demanded = Model::read(kind, s);
    same("header", Library::read(kind, s), demanded, tally)?;
    let count = demanded.map_or(0, |x| x.count);
    for k in (0..count + 2).chain([1 << 40, usize::MAX]) {
        let (answer, wanted) = (Library::extension(kind, s, k), Model::extension(kind, s, k));
        same("extension", answer, wanted, tally)?;
    }
    let found = model_read(kind, s).map(|(_, found)| found);
    let items = found.clone().map(|found| found.items);
    let walked = library_extensions(kind, s);
    same("extensions in one pass", walked, items, tally)?;
    let plain =
        plain_extensions(kind, s).map(|all| (all.length, all.map(plain_extension).collect()));
    plain_same(plain, found.map(|found| (found.length, found.items)))?;
    let mut header = OrpcThis {
        minor: random.below(10) as u16,
        flags: random.word() as u32,
        causality: guid(random),
    };
    if let Ok(read) = demanded {
        header = read.header;
        check_back(kind, s, &read, random, tally)?;
    }
    let write = |buffer: &mut [u8]| Library::write_plain(kind, &header, buffer).map(|()| 0);
    let demand = |buffer: &mut [u8]| Model::write_plain(kind, &header, buffer).map(|()| 0);
    let plain = kind.pointer() + 4;
    same_written("header written", plain, random, tally, write, demand)?;
    check_lent(kind, &header, random, tally)
}

fn plain_extensions(kind: Kind, s: &[u8]) -> Answer<plain::extensions::Extensions<'_>> {
    match kind {
        Kind::This => plain::extensions::this(s),
        Kind::That => plain::extensions::that(s),
    }
}

fn plain_extension(e: plain::extensions::Extension) -> Extension {
    Extension {
        pointer: e.pointer,
        id: plain_guid(e.id),
        data: e.data,
    }
}

/// The header read is written by the crate's own types, as the bytes that it was read from but for the reserved field.
fn check_back(
    kind: Kind,
    s: &[u8],
    read: &Read,
    random: &mut Random,
    tally: &mut Tally,
) -> Result<(), String> {
    let each = |k| library_extension(kind, s, k).expect("read");
    let extensions: Vec<r::Extension> = (0..read.count).map(each).collect();
    let write = |buffer: &mut [u8]| {
        let (h, x) = (&read.header, read);
        numbered(match kind {
            Kind::This => call_header(h).write_with(x.pointer, x.array, &extensions, buffer),
            Kind::That => reply_header(h).write_with(x.pointer, x.array, &extensions, buffer),
        })
    };
    let demand = |buffer: &mut [u8]| {
        let mut same = s[..read.length].to_vec();
        if kind == Kind::This {
            same[8..12].fill(0);
        }
        let room = buffer.get_mut(..read.length).ok_or(15u32)?;
        room.copy_from_slice(&same);
        Ok(read.length)
    };
    same_written("written back", read.length, random, tally, write, demand)
}

/// A header written with words and data that now and then break a rule.
fn check_lent(
    kind: Kind,
    header: &OrpcThis,
    random: &mut Random,
    tally: &mut Tally,
) -> Result<(), String> {
    let n = count(random);
    let (mut entries, mut contents) = (Vec::new(), Vec::new());
    for _ in 0..n {
        let data = data(random);
        let pointer = 1 + random.below(u32::MAX as usize) as u64;
        entries.extend([random.word(), random.word(), pointer, data.len() as u64]);
        contents.extend(data);
    }
    let (mut pointer, mut array) = (1 + random.below(9) as u32, 1 + random.below(9) as u32);
    match random.below(16) {
        0 => pointer = 0,
        1 => array = 0,
        2 => (pointer, array) = (0, 0),
        3 => {
            entries.pop();
        }
        4 => entries.push(0),
        5 => contents.push(0),
        6 => {
            contents.pop();
        }
        7 if n > 0 => entries[4 * random.below(n) + 2] = random.pick(&[0, 1 << 32, u64::MAX]),
        8 if n > 0 => entries[4 * random.below(n) + 3] = random.pick(&[0, 1 << 32, u64::MAX]),
        _ => {}
    }
    let lent = Lent {
        pointer,
        array,
        entries: &entries,
        contents: &contents,
    };
    let room = kind.pointer() + 20 + 4 * (n + n % 2) + 32 * n + contents.len();
    let mut whole = vec![0; room];
    let length = Model::write(kind, header, &lent, &mut whole).unwrap_or(room);
    let write = |buffer: &mut [u8]| Library::write(kind, header, &lent, buffer);
    let demand = |buffer: &mut [u8]| Model::write(kind, header, &lent, buffer);
    same_written(
        "header with extensions",
        length,
        random,
        tally,
        write,
        demand,
    )
}

/// Bytes to be judged: a header, as made or damaged, or any bytes.
pub fn bytes(random: &mut Random, kind: Kind) -> Vec<u8> {
    let mut bytes = header(random, kind);
    match random.below(10) {
        0..=2 => damage(random, &mut bytes),
        3 => {
            let n = random.below(bytes.len() + 1);
            bytes.truncate(n);
        }
        4 => {
            let n = random.below(120);
            bytes = random.bytes(n);
        }
        _ => {}
    }
    bytes
}
