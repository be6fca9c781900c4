//! Lines of bytes in hex.
//!
//!     # a comment, printed as it stands
//!     L bytes     a binding list: its answer, the length of the list at the front, bindings 0, 1 and 2 of each part
//!     O bytes     a reference: its fields, its tail, binding 0 of each part, and whether it is written back the same
//!     W bytes     a reference to be written: flags, the size of the buffer, then the list or the object data
//!     I bytes     the same, before it which identifiers are zero: OXID 1, OID 2, the halves of the IPID 4 and 8, added
//!     B           a list of N = 65,535 words, and the same one word short
//!     M bytes     a list to be written: the size of the buffer, how many words the string bindings have, then the words of all bindings
//!     N           a list of N = 65,535 words to be written, and the same with one word more

use super::{all_seen, each_line, hex, text, Answers, Seen};
use crate::bytes::{
    plain_context, plain_fields, plain_property, typed_context, typed_fields, typed_property,
};
use crate::decode::guid;
use crate::model_side::Model;
use crate::subject::Library;
use model::bytes::{self as m, Part, Reference};
use model::contexts::{self, Context, Property};
use rimonakh as r;
use std::fmt::Write;
use std::ops::Range;

pub type Answer<T> = Result<T, u32>;

/// Readers and writers of bytes.
pub trait Codec {
    fn list(s: &[u8]) -> Answer<()>;
    fn front_length(s: &[u8]) -> usize;
    fn list_binding(s: &[u8], part: Part, k: usize) -> Answer<Range<usize>>;
    fn write_list(strings: &[u16], security: &[u16], buffer: &mut [u8]) -> Answer<usize>;
    fn read_reference(s: &[u8]) -> Answer<(Reference, Range<usize>)>;
    fn reference_binding(s: &[u8], part: Part, k: usize) -> Answer<Range<usize>>;
    fn reference_element(s: &[u8], k: usize) -> Answer<Range<usize>>;
    fn reference_property(s: &[u8], k: usize) -> Answer<Range<usize>>;
    fn write_reference(
        r: &Reference,
        tail: &[u8],
        content: &[u8],
        buffer: &mut [u8],
    ) -> Answer<usize>;
    fn read_context(s: &[u8]) -> Answer<Context>;
    fn read_property(s: &[u8], k: usize) -> Answer<Property>;
    fn write_context(x: &Context, properties: &[u8], buffer: &mut [u8]) -> Answer<usize>;
    fn write_property(x: &Property, content: &[u8], buffer: &mut [u8]) -> Answer<usize>;
}

impl Codec for Model {
    fn list(s: &[u8]) -> Answer<()> {
        m::list(s).map(|_| ())
    }
    fn front_length(s: &[u8]) -> usize {
        m::front_list(s).map_or(0, |l| l.length)
    }
    fn list_binding(s: &[u8], part: Part, k: usize) -> Answer<Range<usize>> {
        m::list_binding(s, part, k)
    }
    fn write_list(strings: &[u16], security: &[u16], buffer: &mut [u8]) -> Answer<usize> {
        m::write_list(strings, security, buffer)
    }
    fn read_reference(s: &[u8]) -> Answer<(Reference, Range<usize>)> {
        m::read_reference(s)
    }
    fn reference_binding(s: &[u8], part: Part, k: usize) -> Answer<Range<usize>> {
        m::reference_binding(s, part, k)
    }
    fn reference_element(s: &[u8], k: usize) -> Answer<Range<usize>> {
        m::reference_element(s, k)
    }
    fn reference_property(s: &[u8], k: usize) -> Answer<Range<usize>> {
        m::reference_property(s, k)
    }
    fn write_reference(
        r: &Reference,
        tail: &[u8],
        content: &[u8],
        buffer: &mut [u8],
    ) -> Answer<usize> {
        m::write_reference(r, tail, content, buffer)
    }
    fn read_context(s: &[u8]) -> Answer<Context> {
        contexts::read_context(s)
    }
    fn read_property(s: &[u8], k: usize) -> Answer<Property> {
        contexts::read_property(s, k).map(|(property, _)| property)
    }
    fn write_context(x: &Context, properties: &[u8], buffer: &mut [u8]) -> Answer<usize> {
        contexts::write_context(x, properties, buffer)
    }
    fn write_property(x: &Property, content: &[u8], buffer: &mut [u8]) -> Answer<usize> {
        contexts::write_property(x, content, buffer)
    }
}

fn part(p: Part) -> r::Part {
    match p {
        Part::Strings => r::Part::Strings,
        Part::Security => r::Part::Security,
    }
}

/// Where a part of bytes stands in them.
fn place(whole: &[u8], part: &[u8]) -> Range<usize> {
    let from = part.as_ptr() as usize - whole.as_ptr() as usize;
    from..from + part.len()
}

impl Codec for Library {
    fn list(s: &[u8]) -> Answer<()> {
        r::list::judge(s).map_err(r::Error::number)
    }
    fn front_length(s: &[u8]) -> usize {
        r::list::front(s).map_or(0, <[u8]>::len)
    }
    fn list_binding(s: &[u8], p: Part, k: usize) -> Answer<Range<usize>> {
        let numbered = r::list::locate(s, part(p), k);
        let walked = r::list::places(s, part(p));
        let walked = walked.and_then(|mut all| all.nth(k).ok_or(r::Error::NoBinding));
        assert_eq!(walked, numbered, "in one pass");
        numbered.map_err(r::Error::number)
    }
    fn write_list(strings: &[u16], security: &[u16], buffer: &mut [u8]) -> Answer<usize> {
        r::list::write(strings, security, buffer).map_err(r::Error::number)
    }
    fn read_reference(s: &[u8]) -> Answer<(Reference, Range<usize>)> {
        let x = r::Reference::read(s).map_err(r::Error::number)?;
        let tail = r::Reference::tail(s).map_err(r::Error::number)?;
        Ok((plain_fields(x), place(s, tail)))
    }
    fn reference_binding(s: &[u8], p: Part, k: usize) -> Answer<Range<usize>> {
        r::Reference::locate(s, part(p), k).map_err(r::Error::number)
    }
    fn reference_element(s: &[u8], k: usize) -> Answer<Range<usize>> {
        r::Reference::locate_element(s, k).map_err(r::Error::number)
    }
    fn reference_property(s: &[u8], k: usize) -> Answer<Range<usize>> {
        r::Reference::locate_property(s, k).map_err(r::Error::number)
    }
    fn write_reference(
        x: &Reference,
        tail: &[u8],
        content: &[u8],
        buffer: &mut [u8],
    ) -> Answer<usize> {
        let written = typed_fields(x).write(tail, content, buffer);
        written.map_err(r::Error::number)
    }
    fn read_context(s: &[u8]) -> Answer<Context> {
        let read = r::Context::read(s).map(plain_context);
        read.map_err(r::Error::number)
    }
    fn read_property(s: &[u8], k: usize) -> Answer<Property> {
        let read = r::Property::read(s, k).map(plain_property);
        read.map_err(r::Error::number)
    }
    fn write_context(x: &Context, properties: &[u8], buffer: &mut [u8]) -> Answer<usize> {
        let written = typed_context(x).write(properties, buffer);
        written.map_err(r::Error::number)
    }
    fn write_property(x: &Property, content: &[u8], buffer: &mut [u8]) -> Answer<usize> {
        let written = typed_property(x).write(content, buffer);
        written.map_err(r::Error::number)
    }
}

/// The answers of each reader and writer, as documents 01 and 02 list them: each occurs in the lines. `k` is binding k of a list, `K` of a
/// reference.
const ANSWERS: Answers = &[
    (b'L', &[0, 13, 14]),
    (b'k', &[0, 13, 14, 24]),
    (b'O', &[0, 13, 14, 22]),
    (b'K', &[0, 13, 14, 22, 24]),
    (b'W', &[0, 14, 13, 22, 15]),
    (b'M', &[0, 14, 15]),
];

/// The answer number, and the results: zeros where it is refused.
pub fn zeroed<T: Default>(answer: Answer<T>) -> (u32, T) {
    match answer {
        Ok(value) => (0, value),
        Err(number) => (number, T::default()),
    }
}

pub fn run<C: Codec>(input: &[u8]) -> String {
    let mut seen = Seen::new();
    let out = each_line(input, |letter, a| {
        line::<C>(letter, &a.bytes(), &mut seen) + "\n"
    });
    all_seen(ANSWERS, &seen);
    out
}

fn line<C: Codec>(letter: u8, s: &[u8], seen: &mut Seen) -> String {
    match letter {
        b'L' => list::<C>(s, [0, 1, 2], &[0, 1, 2], seen),
        b'O' => reference::<C>(s, seen),
        b'W' => written::<C>(0, s, seen),
        b'I' => written::<C>(s[0], &s[1..], seen),
        b'B' => {
            let whole = largest();
            let mut of = |s: &[u8]| list::<C>(s, [0, 32764, 32765], &[0, 1], seen);
            [of(&whole), of(&whole[..whole.len() - 2])].join("\n")
        }
        b'M' => {
            let words = words(&s[2..]);
            let (strings, security) = words.split_at(s[1].into());
            let ((number, length), made) = list_written::<C>(strings, security, s[0].into());
            seen.insert((letter, number));
            format!("{number} length {length} {}", hex(&made))
        }
        b'N' => {
            let largest = words(&largest()[4..]);
            let (strings, security) = (&largest[..65530], &largest[65531..65534]);
            let ((number, length), made) = list_written::<C>(strings, security, 131_074);
            let (judged, ()) = zeroed(C::list(&made));
            let one_more = [&strings[..65529], &[1, 0]].concat();
            let ((refused, _), _) = list_written::<C>(&one_more, security, 131_076);
            format!("{number} length {length} judged {judged}, one more {refused}")
        }
        _ => panic!("no such line: {}", letter as char),
    }
}

fn list<C: Codec>(s: &[u8], strings: [usize; 3], security: &[usize], seen: &mut Seen) -> String {
    let (number, ()) = zeroed(C::list(s));
    seen.insert((b'L', number));
    let mut out = format!("{number} length {}", C::front_length(s));
    for (name, part, numbers) in [
        ("strings", Part::Strings, &strings[..]),
        ("security", Part::Security, security),
    ] {
        write!(out, " {name}").unwrap();
        for k in numbers {
            let (number, place) = zeroed(C::list_binding(s, part, *k));
            seen.insert((b'k', number));
            write!(out, " {number}:{}-{}", place.start, place.end).unwrap();
        }
    }
    out
}

/// Little-endian words.
fn words(s: &[u8]) -> Vec<u16> {
    let word = |w: &[u8]| u16::from_le_bytes([w[0], w[1]]);
    s.chunks_exact(2).map(word).collect()
}

/// Number and length of a list that is written into `room` bytes, and these bytes.
fn list_written<C: Codec>(
    strings: &[u16],
    security: &[u16],
    room: usize,
) -> ((u32, usize), Vec<u8>) {
    let mut buffer = vec![0xee; room];
    let answer = zeroed(C::write_list(strings, security, &mut buffer));
    (answer, buffer)
}

/// A list of N = 65,535 words: 32,765 string bindings with empty addresses and one security binding.
pub fn largest() -> Vec<u8> {
    let mut words: Vec<u16> = vec![65535, 65531];
    words.extend([7, 0].repeat(32765));
    words.extend([0, 10, 0xFFFF, 0, 0]);
    words.iter().flat_map(|w| w.to_le_bytes()).collect()
}

pub fn reference<C: Codec>(s: &[u8], seen: &mut Seen) -> String {
    let (number, (x, tail)) = zeroed(C::read_reference(s));
    seen.insert((b'O', number));
    let mut out = format!(
        "{number} flags {:08x} iid {} block {:08x}",
        x.flags,
        text(&x.iid),
        x.block_flags
    );
    if x.block_flags & 0x1000 != 0 {
        out += " no-ping";
    }
    write!(
        out,
        " public {} oxid {:016x} oid {:016x}",
        x.public, x.oxid, x.oid
    )
    .unwrap();
    write!(out, " ipid {} clsid {}", text(&x.ipid), text(&x.clsid)).unwrap();
    write!(out, " extension {} size {}", x.extension, x.size).unwrap();
    if x.flags == 8 {
        write!(out, " element {}", text(&x.element)).unwrap();
    }
    out += " tail";
    write!(out, " {number}:{}-{}", tail.start, tail.end).unwrap();
    for (name, part) in [("string", Part::Strings), ("security", Part::Security)] {
        let (number, place) = zeroed(C::reference_binding(s, part, 0));
        seen.insert((b'K', number));
        write!(out, " {name} {number}:{}", hex(&s[place])).unwrap();
    }
    if number == 0 {
        let mut buffer = vec![0xee; s.len() + 2];
        let content = &s[C::reference_element(s, 0).unwrap_or_default()];
        let (number, length) = zeroed(C::write_reference(&x, &s[tail], content, &mut buffer));
        let same = if &buffer[..s.len()] == s {
            "same"
        } else {
            "differs"
        };
        write!(
            out,
            " written {number} length {length} {same} after it {}",
            hex(&buffer[s.len()..])
        )
        .unwrap();
    }
    out
}

/// A reference with flags `s[0]` and the tail `s[2..]`, written into `s[1]` bytes. The identifiers whose bits are set in `zeros`
/// are zero.
fn written<C: Codec>(zeros: u8, s: &[u8], seen: &mut Seen) -> String {
    let made = sample(zeros, s[0].into());
    let mut buffer = vec![0xee; s[1].into()];
    let (number, length) = zeroed(C::write_reference(&made, &s[2..], &[], &mut buffer));
    seen.insert((b'W', number));
    format!("{number} length {length} {}", hex(&buffer))
}

/// A reference to be written. Zero are, added: OXID 1, OID 2, the halves of the IPID 4 and 8, those of the element's identifier 16
/// and 32.
pub fn sample(zeros: u8, flags: u32) -> Reference {
    let unless = |bit: u8, id: u64| if zeros & bit != 0 { 0 } else { id };
    Reference {
        flags,
        iid: guid(0x131, 0x4600_0000_0000_00C0),
        block_flags: 0x1000,
        public: 5,
        oxid: unless(1, 0x0102_0304_0506_0708),
        oid: unless(2, 0x1112_1314_1516_1718),
        ipid: guid(
            unless(4, 0x4E60_2D7B_1C5A_3E8F),
            unless(8, 0xAB89_6745_2301_F9A1),
        ),
        clsid: guid(0x11CE_A5D6_0000_0303, 0x4600_0000_0000_00C0),
        extension: 0,
        size: 24,
        element: guid(
            unless(16, 0x5A5A_0000_0000_0D01),
            unless(32, 0x00A5_A500_0000_0D02),
        ),
    }
}
