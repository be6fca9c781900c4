//! What people read, and its JSON.

pub mod reference;
pub mod replay;
pub mod snapshot;

use crate::json::{self, Json};
use crate::names::{protocol, service, Named};
use rimonakh::{list, Error, Text};
use std::fmt::Write;

/// Colours, where they are wanted.
#[derive(Clone, Copy, Debug, Default)]
pub struct Paint(pub bool);

impl Paint {
    fn with(self, code: &str, text: &str) -> String {
        match self.0 {
            true => format!("\x1b[{code}m{text}\x1b[0m"),
            false => text.to_string(),
        }
    }

    pub fn bold(self, text: &str) -> String {
        self.with("1", text)
    }

    pub fn red(self, text: &str) -> String {
        self.with("31", text)
    }

    pub fn green(self, text: &str) -> String {
        self.with("32", text)
    }

    pub fn yellow(self, text: &str) -> String {
        self.with("33", text)
    }
}

/// Bytes in hex, parted by spaces.
pub fn hex(bytes: &[u8]) -> String {
    let pairs: Vec<String> = bytes.iter().map(|b| format!("{b:02x}")).collect();
    pairs.join(" ")
}

/// Bytes in hex, together.
pub fn plain_hex(bytes: &[u8]) -> Json {
    json::text(bytes.iter().map(|b| format!("{b:02x}")).collect::<String>())
}

/// Bytes as a dump shows them: printable ASCII, and points for the others.
pub fn seen(bytes: &[u8]) -> String {
    let shown = |b: &u8| match b {
        b' '..=b'~' => *b as char,
        _ => '.',
    };
    bytes.iter().map(shown).collect()
}

/// A text of a binding, with what can't be printed escaped; half a pair as its unit.
pub fn text(text: Text) -> String {
    let mut out = String::new();
    for unit in char::decode_utf16(text.units()) {
        match unit {
            Ok('"') => out.push('"'),
            Ok('\'') => out.push('\''),
            Ok(c) => out.extend(c.escape_debug()),
            Err(half) => {
                let _ = write!(out, "\\u{{{:04x}}}", half.unpaired_surrogate());
            }
        }
    }
    out
}

/// So many of a thing, with the plural's s.
pub fn many(n: usize, thing: &str) -> String {
    format!("{n} {thing}{}", if n == 1 { "" } else { "s" })
}

/// Bytes of data in rows of sixteen, with marks where it is cut: the first ones, or those around a place further in.
pub fn dump(out: &mut String, margin: &str, data: &[u8], place: usize) {
    const ROW: usize = 16;
    const SHOWN: usize = 4 * ROW;
    let from = match place < SHOWN {
        true => 0,
        false => (place / ROW - 1) * ROW,
    };
    let cut = |out: &mut String, n: usize, words: &str| {
        if n > 0 {
            let _ = writeln!(out, "{margin}... {} {words}", many(n, "byte"));
        }
    };
    let (before, shown) = data.split_at(from.min(data.len()));
    cut(out, before.len(), "before");
    for (k, row) in shown.chunks(ROW).take(SHOWN / ROW).enumerate() {
        let text = seen(row);
        let at = from + ROW * k;
        let _ = writeln!(out, "{margin}{at:04x}: {:<47}  {text}", hex(row));
    }
    cut(out, shown.len().saturating_sub(SHOWN), "more");
}

/// The numbers N and S of a whole list and its length; then its bindings, one to a line.
pub fn bindings(out: &mut String, margin: &str, bytes: &[u8]) -> Result<(), Error> {
    let ((n, s), length) = (sizes(bytes), many(bytes.len(), "byte"));
    let _ = writeln!(out, "{margin}binding list: N {n}, S {s}, {length}");
    for (k, b) in list::strings(bytes)?.enumerate() {
        let tower = Named(b.tower, protocol(b.tower));
        let address = text(b.address);
        let _ = writeln!(
            out,
            "{margin}  string {k}: tower {tower}, address {address}"
        );
    }
    for (k, b) in list::securities(bytes)?.enumerate() {
        let (service, name) = (Named(b.service, service(b.service)), text(b.name));
        let second = b.reserved;
        let _ = writeln!(
            out,
            "{margin}  security {k}: service {service}, second word {second:#06x}, principal {name}"
        );
    }
    Ok(())
}

/// The numbers N and S of a whole list.
fn sizes(bytes: &[u8]) -> (u16, u16) {
    let word = |at: usize| {
        bytes
            .get(at..at + 2)
            .map_or(0, |b| u16::from_le_bytes([b[0], b[1]]))
    };
    (word(0), word(2))
}

/// A whole list in JSON.
pub fn json_bindings(bytes: &[u8]) -> Result<Json, Error> {
    let strings = list::strings(bytes)?.map(|b| {
        Json::Object(vec![
            ("tower", json::number(b.tower)),
            ("protocol", json::named(protocol(b.tower))),
            ("address", json::text(text(b.address))),
        ])
    });
    let security = list::securities(bytes)?.map(|b| {
        Json::Object(vec![
            ("service", json::number(b.service)),
            ("name", json::named(service(b.service))),
            ("second", json::number(b.reserved)),
            ("principal", json::text(text(b.name))),
        ])
    });
    let (n, s) = sizes(bytes);
    Ok(Json::Object(vec![
        ("length", json::size(bytes.len())),
        ("n", json::number(n)),
        ("s", json::number(s)),
        ("strings", json::list(strings)),
        ("security", json::list(security)),
    ]))
}
