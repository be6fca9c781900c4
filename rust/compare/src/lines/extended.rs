//! Lines of extended references and contexts, bytes in hex.
//!
//!     # a comment, printed as it stands
//!     O bytes         a reference, as in bytes.in
//!     E bytes         a reference: elements 0 and 1, and properties 0, 1 and 2 of its context, each by its answer and its place
//!     N levels bytes  the same of a nest: so many extended references, each the data of the one before, around the bytes
//!     Z bytes         the answers to the first 0, 1, 2, .. bytes of a reference, the same ones in a row together
//!     F bit bytes     the answers to a reference with this bit of its byte 0, 1, 2, .. changed, likewise
//!     C bytes         a context: its fields, properties 0, 1 and 2, and whether it is written back the same
//!     X zeros n room bytes    an extended reference to be written: which identifiers are zero (OXID 1, OID 2, the halves of the IPID 4
//!                     and 8, those of the element's identifier 16 and 32, added), the length of the list, the size of the buffer,
//!                     the list and the element's data
//!     Y levels bytes  the same with a nest as data, into a buffer that is long enough
//!     S room bytes    a custom reference of the context marshaler's CLSID to be written: the size of the buffer, the object data
//!     P flags room bytes      a property to be written with its data, Q count room bytes a context with its properties

use super::bytes::{reference, sample, zeroed, Codec};
use super::{all_seen, each_line, hex, text, Answers, Arguments, Seen};
use crate::decode::guid;
use model::contexts::{Context, Property, MARSHALER};
use std::fmt::Write;
use std::ops::Range;

/// The answers of each reader and writer, as documents 01 and 02 list them: each occurs in the lines. `e` is element k, `p` property k
/// of a reference, `c` property k of a context.
const ANSWERS: Answers = &[
    (b'O', &[0, 13, 14, 21, 22]),
    (b'K', &[0, 13, 14, 21, 22, 24]),
    (b'e', &[0, 13, 14, 21, 22, 24]),
    (b'p', &[0, 13, 14, 21, 22, 24]),
    (b'C', &[0, 13, 14]),
    (b'c', &[0, 13, 14, 24]),
    (b'X', &[0, 13, 14, 21, 22, 15]),
    (b'S', &[0, 13, 14, 15]),
    (b'P', &[0, 14, 15]),
    (b'Q', &[0, 13, 14, 15]),
];

pub fn run<C: Codec>(input: &[u8]) -> String {
    let mut seen = Seen::new();
    let out = each_line(input, |letter, a| {
        let printed = match letter {
            b'X' | b'Y' | b'S' | b'P' | b'Q' => write::<C>(letter, a, &mut seen),
            _ => read::<C>(letter, a, &mut seen),
        };
        printed + "\n"
    });
    all_seen(ANSWERS, &seen);
    out
}

/// A line about bytes that are read.
fn read<C: Codec>(letter: u8, mut a: Arguments, seen: &mut Seen) -> String {
    match letter {
        b'O' => reference::<C>(&a.bytes(), seen),
        b'E' => parts::<C>(&a.bytes(), seen),
        b'N' => {
            let levels = a.number();
            parts::<C>(&nest(levels, a.bytes()), seen)
        }
        b'Z' => {
            let s = a.bytes();
            answers::<C>((0..=s.len()).map(|n| s[..n].to_vec()))
        }
        b'F' => {
            let (bit, s) = (a.number(), a.bytes());
            answers::<C>((0..s.len()).map(|at| {
                let mut changed = s.clone();
                changed[at] ^= 1 << bit;
                changed
            }))
        }
        b'C' => context::<C>(&a.bytes(), seen),
        _ => panic!("no such line: {}", letter as char),
    }
}

/// A line about what is written.
fn write<C: Codec>(letter: u8, mut a: Arguments, seen: &mut Seen) -> String {
    match letter {
        b'X' => {
            let (zeros, n) = (a.number() as u8, a.number() as usize);
            let (room, s) = (a.number() as usize, a.bytes());
            let (list, data) = s.split_at(n);
            written::<C>(zeros, list, data, room, seen)
        }
        b'Y' => {
            let data = nest(a.number(), a.bytes());
            written::<C>(0, &[0; 4], &data, 104 + data.len() + 7, seen)
        }
        b'S' => {
            let mut made = sample(0, 4);
            made.clsid = MARSHALER;
            into(a, letter, seen, |s, buffer| {
                C::write_reference(&made, s, &[], buffer)
            })
        }
        b'P' => {
            let made = Property {
                clsid: guid(0x0C01, 0x0C02),
                policy: guid(0x0C03, 0x0C04),
                flags: a.narrow(),
            };
            into(a, letter, seen, |s, buffer| {
                C::write_property(&made, s, buffer)
            })
        }
        _ => {
            let made = Context {
                id: guid(0x0C05, 0x0C06),
                reserved: 7,
                marshal: 8,
                count: a.narrow(),
                frozen: 1,
            };
            into(a, letter, seen, |s, buffer| {
                C::write_context(&made, s, buffer)
            })
        }
    }
}

/// So many extended references around the bytes, each with the sample's fields and a list without words.
fn nest(levels: u64, innermost: Vec<u8>) -> Vec<u8> {
    let x = sample(0, 8);
    (0..levels).fold(innermost, |inside, _| {
        let rounded = inside.len().next_multiple_of(8);
        let mut s = b"MEOW\x08\0\0\0".to_vec();
        s.extend(x.iid);
        s.extend(x.block_flags.to_le_bytes());
        s.extend(x.public.to_le_bytes());
        s.extend(x.oxid.to_le_bytes());
        s.extend(x.oid.to_le_bytes());
        s.extend(x.ipid);
        s.extend(b"VYSN\0\0\0\0\x01\0\0\0VYSN");
        s.extend(x.element);
        s.extend((inside.len() as u32).to_le_bytes());
        s.extend((rounded as u32).to_le_bytes());
        s.extend(&inside);
        s.resize(s.len() + rounded - inside.len(), 0);
        s
    })
}

fn place(answer: Result<Range<usize>, u32>, letter: u8, seen: &mut Seen) -> String {
    let (number, place) = zeroed(answer);
    seen.insert((letter, number));
    format!(" {number}:{}-{}", place.start, place.end)
}

fn parts<C: Codec>(s: &[u8], seen: &mut Seen) -> String {
    let (number, _) = zeroed(C::read_reference(s));
    seen.insert((b'O', number));
    let mut out = format!("{number} of {} bytes: elements", s.len());
    for k in [0, 1] {
        out += &place(C::reference_element(s, k), b'e', seen);
    }
    out += " properties";
    for k in [0, 1, 2] {
        out += &place(C::reference_property(s, k), b'p', seen);
    }
    out
}

/// The answers to references: how many in a row have which one.
fn answers<C: Codec>(references: impl Iterator<Item = Vec<u8>>) -> String {
    let mut runs: Vec<(u32, usize)> = Vec::new();
    for s in references {
        let number = C::read_reference(&s).err().unwrap_or(0);
        match runs.last_mut() {
            Some((last, n)) if *last == number => *n += 1,
            _ => runs.push((number, 1)),
        }
    }
    let shown = runs.iter().map(|(number, n)| format!("{n} x {number}"));
    shown.collect::<Vec<_>>().join(", ")
}

fn context<C: Codec>(s: &[u8], seen: &mut Seen) -> String {
    let (number, x) = zeroed(C::read_context(s));
    seen.insert((b'C', number));
    let mut out = format!("{number} id {} reserved {:08x}", text(&x.id), x.reserved);
    write!(
        out,
        " marshal {:08x} count {} frozen {:08x}",
        x.marshal, x.count, x.frozen
    )
    .unwrap();
    for k in [0, 1, 2] {
        let (number, p) = zeroed(C::read_property(s, k));
        seen.insert((b'c', number));
        write!(
            out,
            " property {number} class {} policy {} flags {}",
            text(&p.clsid),
            text(&p.policy),
            p.flags
        )
        .unwrap();
    }
    if number == 0 {
        let mut buffer = vec![0xee; s.len() + 2];
        let (number, length) = zeroed(C::write_context(&x, &s[48..], &mut buffer));
        let same = buffer[..s.len()] == *s && buffer[s.len()..] == [0xee; 2];
        let same = if same { "same" } else { "differs" };
        write!(out, " written {number} length {length} {same}").unwrap();
    }
    out
}

/// What is written of the bytes that are left into a buffer of the size before them.
fn into(
    mut a: Arguments,
    letter: u8,
    seen: &mut Seen,
    write: impl Fn(&[u8], &mut [u8]) -> Result<usize, u32>,
) -> String {
    let (room, s) = (a.number() as usize, a.bytes());
    buffered(room, letter, seen, |buffer| write(&s, buffer))
}

fn buffered(
    room: usize,
    letter: u8,
    seen: &mut Seen,
    write: impl Fn(&mut [u8]) -> Result<usize, u32>,
) -> String {
    let mut buffer = vec![0xee; room];
    let (number, length) = zeroed(write(&mut buffer));
    seen.insert((letter, number));
    format!("{number} length {length} {}", hex(&buffer))
}

fn written<C: Codec>(zeros: u8, list: &[u8], data: &[u8], room: usize, seen: &mut Seen) -> String {
    let made = sample(zeros, 8);
    buffered(room, b'X', seen, |buffer| {
        C::write_reference(&made, list, data, buffer)
    })
}
