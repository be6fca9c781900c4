//! The stored lines, `rust/compare/lines`: in `*.in` one call or byte input to a line, a section for each edge of document 01; in
//! `*.out` what the model prints of them. Every comparison demands that model and library still print that; `compare make`
//! writes the outputs anew, from the model alone.

mod bytes;
mod extended;
mod fragments;
mod headers;
mod recordings;
mod table;

use crate::decode::guid;
use crate::generate::long_list;
use crate::model_side::Model;
use crate::subject::Library;
use crate::Differs;
use std::collections::BTreeSet;
use std::fs;
use std::path::PathBuf;

/// What the line after its letter holds.
pub struct Arguments<'a> {
    rest: &'a [u8],
}

impl<'a> Arguments<'a> {
    /// The next decimal number; 0 where there is none, the largest where it is larger.
    pub fn number(&mut self) -> u64 {
        let spaces = self.rest.iter().take_while(|b| **b == b' ').count();
        let rest = &self.rest[spaces..];
        let digits = rest.iter().take_while(|b| b.is_ascii_digit()).count();
        self.rest = &rest[digits..];
        rest[..digits].iter().fold(0u64, |n, d| {
            let grown = n
                .checked_mul(10)
                .and_then(|n| n.checked_add((d - b'0') as u64));
            grown.unwrap_or(u64::MAX)
        })
    }

    /// The next word of letters, digits and `_`.
    fn name(&mut self) -> &'a [u8] {
        let spaces = self.rest.iter().take_while(|b| **b == b' ').count();
        let rest = &self.rest[spaces..];
        let length = rest.iter().take_while(|b| **b != b' ').count();
        self.rest = &rest[length..];
        &rest[..length]
    }

    fn narrow(&mut self) -> u32 {
        self.number() as u32
    }

    /// A GUID by its two halves.
    pub fn guid(&mut self) -> model::Guid {
        let (low, high) = (self.number(), self.number());
        guid(low, high)
    }

    /// So many numbers, of which the first number is how many.
    pub fn numbers(&mut self) -> Vec<u64> {
        (0..self.number()).map(|_| self.number()).collect()
    }

    /// The hex digits that are left, as bytes; or `@n`, a list of n words with one binding, then changes.
    pub fn bytes(&self) -> Vec<u8> {
        let spaces = self.rest.iter().take_while(|b| **b == b' ').count();
        match self.rest[spaces..] {
            [b'@', ref rest @ ..] => {
                let mut a = Arguments { rest };
                let list = long_list(4 + 2 * a.number() as usize);
                a.changed(list)
            }
            _ => self.digits(),
        }
    }

    /// Bytes with the changes that are left: `cut k`, without the last k bytes; `put k hex`, with these bytes from byte k on;
    /// `insert k hex`, with these bytes before byte k.
    fn changed(&mut self, mut bytes: Vec<u8>) -> Vec<u8> {
        loop {
            let change = self.name();
            if change.is_empty() {
                return bytes;
            }
            let at = self.number() as usize;
            let mut new = || Arguments { rest: self.name() }.digits();
            match change {
                b"cut" => bytes.truncate(bytes.len() - at),
                b"put" => {
                    let new = new();
                    bytes[at..at + new.len()].copy_from_slice(&new);
                }
                b"insert" => drop(bytes.splice(at..at, new())),
                _ => panic!("no such change"),
            }
        }
    }

    fn digits(&self) -> Vec<u8> {
        let digits: Vec<u8> = self
            .rest
            .iter()
            .filter_map(|b| {
                (*b as char)
                    .to_digit(16)
                    .filter(|_| !b.is_ascii_uppercase())
            })
            .map(|d| d as u8)
            .collect();
        digits.chunks_exact(2).map(|d| d[0] * 16 + d[1]).collect()
    }
}

/// What a line asks, by its letter, and an answer to it.
type Seen = BTreeSet<(u8, u32)>;

/// The answers that the documents list for each letter.
pub type Answers = &'static [(u8, &'static [u32])];

/// What is printed of an input: a comment as it stands, and of each other line what `one` says of its letter and what is behind it.
fn each_line(input: &[u8], mut one: impl FnMut(u8, Arguments) -> String) -> String {
    let mut out = String::new();
    for line in input.split(|b| *b == b'\n').filter(|line| !line.is_empty()) {
        match line[0] {
            b'#' => out.extend([&String::from_utf8_lossy(line), "\n"]),
            letter => out += &one(letter, Arguments { rest: &line[1..] }),
        }
    }
    out
}

/// Demands that every listed answer occurred.
fn all_seen(answers: Answers, seen: &Seen) {
    for (letter, numbers) in answers {
        for number in *numbers {
            let (seen, letter) = (seen.contains(&(*letter, *number)), *letter as char);
            assert!(seen, "no line {letter} is answered by {number}");
        }
    }
}

fn hex(bytes: &[u8]) -> String {
    bytes.iter().map(|b| format!("{b:02x}")).collect()
}

/// A GUID in its usual text.
fn text(g: &model::Guid) -> String {
    let mut front = [g[3], g[2], g[1], g[0], g[5], g[4], g[7], g[6]].map(|b| format!("{b:02x}"));
    front[4].insert(0, '-');
    front[6].insert(0, '-');
    format!(
        "{{{}-{}-{}}}",
        front.concat(),
        hex(&g[8..10]),
        hex(&g[10..])
    )
}

fn stored(name: &str) -> PathBuf {
    PathBuf::from(env!("CARGO_MANIFEST_DIR"))
        .join("lines")
        .join(name)
}

/// What is printed of a stored input.
type Run = fn(&[u8]) -> String;

/// The stored inputs, with what the model and the library print of them.
const INPUTS: [(&str, Run, Run); 6] = [
    ("headers", headers::run::<Model>, headers::run::<Library>),
    ("bytes", bytes::run::<Model>, bytes::run::<Library>),
    ("extended", extended::run::<Model>, extended::run::<Library>),
    (
        "fragments",
        fragments::run::<Model>,
        fragments::run::<Library>,
    ),
    ("table", table::run::<Model>, table::run::<Library>),
    (
        "recordings",
        recordings::run::<Model>,
        recordings::run::<Library>,
    ),
];

/// Runs the stored inputs through the library and compares with the stored outputs.
pub fn compare() -> Result<(), Differs> {
    for (name, model, library) in INPUTS {
        let input = fs::read(stored(&format!("{name}.in"))).expect("the stored input");
        let demanded =
            fs::read_to_string(stored(&format!("{name}.out"))).expect("the stored output");
        for (side, run) in [("model", model), ("library", library)] {
            let answered = run(&input);
            if answered != demanded {
                let same = answered
                    .lines()
                    .zip(demanded.lines())
                    .take_while(|(a, b)| a == b)
                    .count();
                println!("FAILED: {side}, {name}.out, line {}", same + 1);
                println!("  answered {:?}", answered.lines().nth(same));
                println!("  demanded {:?}", demanded.lines().nth(same));
                return Err(Differs);
            }
        }
        println!("{name}.in: {} lines", demanded.lines().count());
    }
    Ok(())
}

/// Writes the stored outputs anew.
pub fn make() {
    for (name, model, _) in INPUTS {
        let input = fs::read(stored(&format!("{name}.in"))).expect("the stored input");
        fs::write(stored(&format!("{name}.out")), model(&input)).expect("written");
    }
}
