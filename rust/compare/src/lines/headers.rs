//! Lines of call headers with their extensions, in hex.
//!
//!     # a comment, printed as it stands
//!     H bytes     a call header (ORPCTHIS): its fields, its extensions with the next number, and what is written back of it
//!     R bytes     a reply header (ORPCTHAT), likewise
//!     A n size    both headers with n extensions of so many bytes each: the same, of the first, the last and the next extension
//!     C bytes     a call header cut after each byte, and P with each byte changed to 0, in its lowest and in its highest bit: the
//!     c bytes     answers, each after the first place that has it; c and p of a reply header
//!     M minor room    an ORPCTHIS of this minor version without extensions, T room an ORPCTHAT, into a buffer of so many bytes
//!     X minor room pointer array n words.. data    an ORPCTHIS with n words for extensions, Y without minor an ORPCTHAT
//!     Z size      an ORPCTHAT with one extension of so many zeros, into 64 bytes

use super::{all_seen, each_line, hex, text, Answers, Arguments, Seen};
use crate::headers::{Answer, Headers, Kind, Made, Read};
use model::bytes::OrpcThis;
use model::extensions::{Extension, Lent};
use std::fmt::Write;

/// The answers of each reader and writer, as documents 01 and 02 list them: each occurs in the lines. `k` is extension k of a call
/// header, `K` of a reply header; `X` and `Y` are the writers with extensions.
const ANSWERS: Answers = &[
    (b'H', &[0, 13, 16, 14]),
    (b'k', &[0, 13, 16, 14, 24]),
    (b'R', &[0, 13, 14]),
    (b'K', &[0, 13, 14, 24]),
    (b'M', &[0, 16, 15]),
    (b'T', &[0, 15]),
    (b'X', &[0, 16, 14, 15]),
    (b'Y', &[0, 14, 15]),
];

pub fn run<S: Headers>(input: &[u8]) -> String {
    let mut seen = Seen::new();
    let out = each_line(input, |letter, a| line::<S>(letter, a, &mut seen) + "\n");
    all_seen(ANSWERS, &seen);
    out
}

fn line<S: Headers>(letter: u8, mut a: Arguments, seen: &mut Seen) -> String {
    match letter {
        b'H' => header::<S>(Kind::This, &a.bytes(), seen),
        b'R' => header::<S>(Kind::That, &a.bytes(), seen),
        b'A' => {
            let (n, size) = (a.number() as usize, a.number() as usize);
            let mut of = |kind| header::<S>(kind, &made(kind, n, size), seen);
            [of(Kind::This), of(Kind::That)].join("\n")
        }
        b'C' => cut::<S>(Kind::This, &a.bytes()),
        b'c' => cut::<S>(Kind::That, &a.bytes()),
        b'P' => changed::<S>(Kind::This, &a.bytes()),
        b'p' => changed::<S>(Kind::That, &a.bytes()),
        b'M' => plain::<S>(Kind::This, a.number() as u16, a.number(), seen),
        b'T' => plain::<S>(Kind::That, 0, a.number(), seen),
        b'X' => written::<S>(Kind::This, a.number() as u16, a, seen),
        b'Y' => written::<S>(Kind::That, 0, a, seen),
        b'Z' => {
            let size = a.number();
            let contents = vec![0; size as usize]; // zeroed by the system, and never touched
            let entries = [1, 2, 3, size];
            let lent = Lent {
                pointer: 1,
                array: 2,
                entries: &entries,
                contents: &contents,
            };
            put::<S>(Kind::That, 0, 64, &lent, seen)
        }
        _ => panic!("no such line: {}", letter as char),
    }
}

/// A header with n extensions of so many bytes each, that tell them apart.
fn made(kind: Kind, n: usize, size: usize) -> Vec<u8> {
    let mut bytes = match kind {
        Kind::This => vec![5, 0, 7, 0],
        Kind::That => vec![],
    };
    bytes.resize(kind.pointer(), 0);
    let item = |i: usize| ([i as u8 + 1; 16], vec![i as u8 + 0x81; size]);
    bytes.extend(Made::proper(&(0..n).map(item).collect::<Vec<_>>()).bytes());
    bytes
}

fn letter(kind: Kind, letters: [u8; 2]) -> u8 {
    letters[(kind == Kind::That) as usize]
}

/// A causality id that is not nil, and flags.
fn sample(minor: u16) -> OrpcThis {
    let mut causality = [0; 16];
    (causality[0], causality[8]) = (1, 2);
    OrpcThis {
        minor,
        flags: 1,
        causality,
    }
}

fn header<S: Headers>(kind: Kind, s: &[u8], seen: &mut Seen) -> String {
    let answer = S::read(kind, s);
    let number = answer.err().unwrap_or(0);
    seen.insert((letter(kind, [b'H', b'R']), number));
    let read = answer.unwrap_or_default();
    let h = &read.header;
    let mut out = number.to_string();
    if kind == Kind::This {
        write!(out, " minor {} causality {}", h.minor, text(&h.causality)).unwrap();
    }
    write!(out, " flags {:08x} pointer {:08x}", h.flags, read.pointer).unwrap();
    write!(out, " array {:08x} count {}", read.array, read.count).unwrap();
    write!(out, " length {}", read.length).unwrap();
    let last = read.count.saturating_sub(1);
    for k in (0..=read.count).filter(|k| read.count < 4 || *k < 1 || *k >= last) {
        out += &extension(k, &S::extension(kind, s, k), s, kind, seen);
    }
    if number == 0 {
        out += &back::<S>(kind, s, &read);
    }
    out
}

fn extension(k: usize, x: &Answer<Extension>, s: &[u8], kind: Kind, seen: &mut Seen) -> String {
    let number = x.as_ref().err().copied().unwrap_or(0);
    seen.insert((letter(kind, [b'k', b'K']), number));
    match x {
        Err(number) => format!(" [{k}] {number}"),
        Ok(x) => {
            let (from, to) = (x.data.start, x.data.end);
            let (id, data) = (text(&x.id), hex(&s[x.data.clone()]));
            format!(" [{k}] 0 {:08x} {id} {from}-{to} {data}", x.pointer)
        }
    }
}

/// The words and the data that a writer is lent for what was read.
fn words_of(s: &[u8], items: &[Extension]) -> (Vec<u64>, Vec<u8>) {
    let half = |id: &[u8]| u64::from_le_bytes(id.try_into().unwrap());
    let words = |e: &Extension| {
        let size = e.data.len() as u64;
        [half(&e.id[..8]), half(&e.id[8..]), e.pointer.into(), size]
    };
    let contents = items.iter().flat_map(|e| &s[e.data.clone()]).copied();
    (items.iter().flat_map(words).collect(), contents.collect())
}

/// What is written of a header that was read, into two bytes more.
fn back<S: Headers>(kind: Kind, s: &[u8], read: &Read) -> String {
    let items: Result<Vec<_>, u32> = (0..read.count).map(|k| S::extension(kind, s, k)).collect();
    let (entries, contents) = words_of(s, &items.expect("each is there"));
    let lent = Lent {
        pointer: read.pointer,
        array: read.array,
        entries: &entries,
        contents: &contents,
    };
    let mut buffer = vec![0xee; read.length + 2];
    let length = S::write(kind, &read.header, &lent, &mut buffer).expect("room");
    let (front, rest) = buffer.split_at(length);
    let mut zeroed = s[..length].to_vec();
    if kind == Kind::This {
        zeroed[8..12].fill(0);
    }
    let same = match () {
        _ if front == &s[..length] => "the same",
        _ if front == zeroed => "the same but for the reserved field",
        _ => "other bytes",
    };
    format!(" written {length} {same} then {}", hex(rest))
}

/// Numbers in a row, each after the first place that has it.
fn runs(numbers: impl Iterator<Item = u32>) -> String {
    let mut out = String::new();
    let mut last = None;
    for (at, number) in numbers.enumerate() {
        if last != Some(number) {
            write!(out, " {at}:{number}").unwrap();
            last = Some(number);
        }
    }
    out
}

fn number<S: Headers>(kind: Kind, s: &[u8]) -> u32 {
    S::read(kind, s).err().unwrap_or(0)
}

fn cut<S: Headers>(kind: Kind, s: &[u8]) -> String {
    "cut".to_string() + &runs((0..=s.len()).map(|n| number::<S>(kind, &s[..n])))
}

fn changed<S: Headers>(kind: Kind, s: &[u8]) -> String {
    let with = |change: fn(u8) -> u8| {
        runs((0..s.len()).map(|at| {
            let mut bytes = s.to_vec();
            bytes[at] = change(bytes[at]);
            number::<S>(kind, &bytes)
        }))
    };
    let (zero, low, high) = (with(|_| 0), with(|b| b ^ 1), with(|b| b ^ 0x80));
    format!("zero{zero} low{low} high{high}")
}

fn plain<S: Headers>(kind: Kind, minor: u16, room: u64, seen: &mut Seen) -> String {
    let mut buffer = vec![0xee; room as usize];
    let answer = S::write_plain(kind, &sample(minor), &mut buffer);
    let number = answer.err().unwrap_or(0);
    seen.insert((letter(kind, [b'M', b'T']), number));
    format!("{number} {}", hex(&buffer))
}

fn written<S: Headers>(kind: Kind, minor: u16, mut a: Arguments, seen: &mut Seen) -> String {
    let (room, pointer, array) = (a.number(), a.narrow(), a.narrow());
    let entries = a.numbers();
    let contents = a.bytes();
    let lent = Lent {
        pointer,
        array,
        entries: &entries,
        contents: &contents,
    };
    put::<S>(kind, minor, room as usize, &lent, seen)
}

fn put<S: Headers>(kind: Kind, minor: u16, room: usize, lent: &Lent, seen: &mut Seen) -> String {
    let mut buffer = vec![0xee; room];
    let answer = S::write(kind, &sample(minor), lent, &mut buffer);
    let number = answer.err().unwrap_or(0);
    seen.insert((letter(kind, [b'X', b'Y']), number));
    let length = answer.unwrap_or(0);
    format!("{number} length {length} {}", hex(&buffer))
}
