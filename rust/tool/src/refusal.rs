//! A refusal as it is told: the library's number and words, then the byte and the rule, with the bytes around it.

use crate::explain::{recordings, references, snapshots, Fault, Walked};
use crate::input::Input;
use crate::json::{self, Json};
use crate::show::{plain_hex, Paint};
use rimonakh::{Error, Reference, Snapshot};
use std::fmt::Write;
use std::ops::Range;

pub struct Refusal {
    error: Error,
    /// Where and why, where the walk comes to the library's number.
    fault: Option<Fault>,
    /// The length of the input, and the bytes around the fault with the place of the first.
    length: usize,
    from: usize,
    around: Vec<u8>,
    hex: bool,
    hint: Option<String>,
}

/// The place of a byte with up to eight before it and fifteen behind.
fn window(at: usize, length: usize) -> Range<usize> {
    let from = at.saturating_sub(8).min(length);
    from..(at.saturating_add(16)).min(length)
}

impl Refusal {
    fn new(input: &Input, error: Error, walked: Walked<()>, hint: Option<String>) -> Refusal {
        let fault = Fault::agreeing(walked, error);
        let length = input.bytes.len();
        let range = window(fault.as_ref().map_or(0, |f| f.at), length);
        Refusal {
            error,
            fault,
            length,
            from: range.start,
            around: input.bytes[range].to_vec(),
            hex: input.hex,
            hint,
        }
    }

    pub fn of_reference(input: &Input, error: Error) -> Refusal {
        let inside = input.signature().filter(|at| *at > 0);
        let begins = |at| format!("a signature MEOW stands at byte {at}: try --find");
        let found = |at| format!("the bytes are those from byte {at} of the input on");
        let hint = other(&input.bytes).or_else(|| inside.map(begins));
        let hint = input.found.map(found).or(hint);
        Refusal::new(input, error, references::reference(&input.bytes), hint)
    }

    pub fn of_snapshot(input: &Input, error: Error) -> Refusal {
        let walked = snapshots::snapshot(&input.bytes);
        Refusal::new(input, error, walked, other(&input.bytes))
    }

    pub fn of_recording(input: &Input, error: Error) -> Refusal {
        let walked = recordings::recording(&input.bytes);
        Refusal::new(input, error, walked, other(&input.bytes))
    }

    /// What is printed on standard error.
    pub fn text(&self, paint: Paint) -> String {
        let mut out = paint.red(&format!("refused: {}", self.error));
        out.push_str(if self.hex { ", read as hex\n" } else { "\n" });
        if let Some(f) = &self.fault {
            let _ = writeln!(out, "  {}", f.rule);
            let _ = writeln!(out, "  at byte {} ({:#x}) of {}:", f.at, f.at, self.length);
            let _ = writeln!(out, "  {:04x}: {}", self.from, self.marked(f.at, paint));
        }
        if let Some(hint) = &self.hint {
            let _ = writeln!(out, "  {hint}");
        }
        out
    }

    /// The bytes around the fault, its own in brackets.
    fn marked(&self, at: usize, paint: Paint) -> String {
        let byte = |(k, b): (usize, &u8)| match self.from + k == at {
            true => paint.red(&format!("[{b:02x}]")),
            false => format!("{b:02x}"),
        };
        let mut row: Vec<String> = self.around.iter().enumerate().map(byte).collect();
        let end = self.from + self.around.len();
        row.push(match end == self.length {
            true if at == end => paint.red("[end]"),
            true => "end".into(),
            false => "...".into(),
        });
        row.join(" ")
    }

    pub fn json(&self) -> Json {
        let mut out = vec![
            ("refused", json::number(self.error.number())),
            ("words", json::text(self.error.words())),
            ("length", json::size(self.length)),
        ];
        if let Some(f) = &self.fault {
            out.push(("byte", json::size(f.at)));
            out.push(("rule", json::text(&f.rule)));
            out.push(("around_from", json::size(self.from)));
            out.push(("around", plain_hex(&self.around)));
        }
        if let Some(hint) = &self.hint {
            out.push(("hint", json::text(hint)));
        }
        Json::Object(out)
    }
}

/// What refused bytes are instead, where another command takes them.
fn other(bytes: &[u8]) -> Option<String> {
    let (what, command) = if Reference::judge(bytes).is_ok() {
        ("a reference", "objref")
    } else if Snapshot::read(bytes).is_ok() {
        ("a snapshot", "snapshot")
    } else if recordings::recording(bytes).is_ok() {
        ("a recording", "replay")
    } else {
        return None;
    };
    Some(format!("these bytes are {what}: try rimonakh {command}"))
}
