//! Lines of references in fragments. Each is also read in one piece and byte by byte, which has to answer the same.
//!
//!     # a comment, printed as it stands
//!     F waiting final bytes/bytes/..  fragments in hex, a waiting and a final buffer of so many bytes
//!     G waiting final change          a standard reference with a list of N = 65,535 words, in fragments of 1,000 bytes; change
//!                                     is 0 whole, 1 one byte short, 2 one byte more, 3 a broken list, 4 a nil OXID

use super::bytes::largest;
use super::{all_seen, each_line, hex, text, Answers, Arguments, Seen};
use crate::fragments::{self, Answer};
use crate::model_side::Model;
use crate::subject::Library;

pub trait Reader {
    fn read(fragments: &[&[u8]], waiting: usize, last: &mut [u8]) -> Answer;
}

impl Reader for Model {
    fn read(fragments: &[&[u8]], waiting: usize, last: &mut [u8]) -> Answer {
        model::fragments::read(fragments, waiting, last)
    }
}

impl Reader for Library {
    fn read(fragments: &[&[u8]], waiting: usize, last: &mut [u8]) -> Answer {
        fragments::library(fragments, waiting, last)
    }
}

/// The answers that document 02 lists.
const ANSWERS: Answers = &[(b'F', &[0, 13, 14, 22, 15]), (b'G', &[0, 13, 14, 22, 15])];

/// The answer, the fields, the length, and the final buffer (of a long one its first bytes).
fn answered<R: Reader>(fragments: &[&[u8]], waiting: usize, last: usize) -> (u32, String) {
    let mut buffer = vec![0xee; last];
    let answer = R::read(fragments, waiting, &mut buffer);
    let number = answer.err().unwrap_or(0);
    let (x, length) = answer.unwrap_or_default();
    let fields = if (x, length) == Default::default() {
        "zeros".to_string()
    } else {
        let [iid, ipid, clsid] = [x.iid, x.ipid, x.clsid].map(|g| text(&g));
        format!(
            "flags {} iid {iid} block {:08x} public {} oxid {:x} oid {:x} ipid {ipid} clsid {clsid} extension {} size {} length {length}",
            x.flags, x.block_flags, x.public, x.oxid, x.oid, x.extension, x.size
        )
    };
    let shown = hex(&buffer[..buffer.len().min(64)]);
    let kept = buffer.iter().rev().take_while(|b| **b == 0xee).count();
    let out = format!("{number} {fields} final {shown} kept {kept}");
    (number, out)
}

pub fn run<R: Reader>(input: &[u8]) -> String {
    let mut seen = Seen::new();
    let out = each_line(input, |letter, a| line::<R>(letter, a, &mut seen) + "\n");
    all_seen(ANSWERS, &seen);
    out
}

fn line<R: Reader>(letter: u8, mut a: Arguments, seen: &mut Seen) -> String {
    let (waiting, last) = (a.number() as usize, a.number() as usize);
    let pieces: Vec<Vec<u8>> = if letter == b'G' {
        let whole = long(a.number());
        whole.chunks(1000).map(<[u8]>::to_vec).collect()
    } else {
        let bytes = |rest| Arguments { rest }.bytes();
        a.rest.split(|b| *b == b'/').map(bytes).collect()
    };
    let fragments: Vec<&[u8]> = pieces.iter().map(Vec::as_slice).collect();
    let (number, printed) = answered::<R>(&fragments, waiting, last);
    seen.insert((letter, number));
    let whole = fragments.concat();
    let each: Vec<&[u8]> = whole.chunks(1).collect();
    let same = [vec![&whole[..]], each]
        .iter()
        .all(|cuts| answered::<R>(cuts, waiting, last).1 == printed);
    match same {
        true => printed,
        false => printed + " DIFFERS when cut elsewhere",
    }
}

/// A standard reference with the largest list, changed.
fn long(change: u64) -> Vec<u8> {
    let mut bytes = b"MEOW".to_vec();
    bytes.extend([1, 0, 0, 0]);
    bytes.extend([1; 56]);
    bytes.extend(largest());
    match change {
        1 => drop(bytes.pop()),
        2 => bytes.push(0),
        3 => bytes[68..70].fill(0),
        4 => bytes[32..40].fill(0),
        _ => {}
    }
    bytes
}
