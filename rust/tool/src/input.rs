//! Bytes from a file or standard input. The rule: what is text is hex, and everything else is bytes. Nothing that the library accepts is
//! text (a reference has zero bytes in its flags, a snapshot in its form's number, a recording in its number of records), so the rule
//! never takes one for hex.

use crate::progress::Progress;
use crate::show::seen;
use rimonakh::Reference;
use std::fs::File;
use std::io::{self, Read};

/// How the input is taken.
#[derive(Clone, Copy, Debug, Default, PartialEq, Eq)]
pub enum Form {
    /// By the rule.
    #[default]
    Told,
    /// `--hex`.
    Hex,
    /// `--raw`.
    Raw,
}

/// The bytes of an input.
#[derive(Clone, Debug, PartialEq, Eq)]
pub struct Input {
    pub bytes: Vec<u8>,
    /// Whether they stood there in hex.
    pub hex: bool,
    /// Where the bytes that are looked at were found, where they were looked for.
    pub found: Option<usize>,
}

impl Input {
    fn new(bytes: Vec<u8>, hex: bool) -> Input {
        let found = None;
        Input { bytes, hex, found }
    }

    /// Where the first signature of a reference stands.
    pub fn signature(&self) -> Option<usize> {
        self.bytes
            .windows(4)
            .position(|four| four == Reference::SIGNATURE)
    }

    /// Leaves the bytes from the first signature on; those of a marshaled pointer (MS-DCOM, section 2.2.14), which has their number before
    /// them, up to its end.
    pub fn find(&mut self) -> Result<(), Failed> {
        let at = self.signature();
        let at = at.ok_or("no signature MEOW stands in the input")?;
        let size = self.bytes[..at].last_chunk();
        let size = size.map(|n| u32::from_le_bytes(*n) as usize);
        self.bytes.drain(..at);
        let left = self.bytes.len();
        let within = size.filter(|n| (24..=left).contains(n));
        self.bytes.truncate(within.unwrap_or(left));
        self.found = Some(at);
        Ok(())
    }
}

/// What a failed read says.
pub type Failed = String;

/// What is read, and how.
#[derive(Clone, Debug, Default, PartialEq, Eq)]
pub struct Source {
    /// A file; standard input where none is named.
    pub file: Option<String>,
    pub form: Form,
}

impl Source {
    /// The bytes of the file or of `stdin`; an input of more than `most` bytes fails.
    pub fn read(
        &self,
        most: u64,
        stdin: &mut dyn Read,
        progress: &mut Progress,
    ) -> Result<Input, Failed> {
        let name = self.file.as_deref().unwrap_or("standard input");
        let read = match &self.file {
            None => all(stdin, None, most, progress),
            Some(path) => File::open(path).and_then(|mut file| {
                let size = file.metadata().ok().map(|m| m.len());
                all(&mut file, size, most, progress)
            }),
        };
        let bytes = read.map_err(|e| format!("{name}: {e}"))?;
        if bytes.is_empty() {
            return Err(format!("{name}: empty"));
        }
        decoded(bytes, self.form).map_err(|e| format!("{name}: {e}"))
    }
}

/// All bytes of a stream, piece by piece.
fn all(
    stream: &mut dyn Read,
    size: Option<u64>,
    most: u64,
    progress: &mut Progress,
) -> io::Result<Vec<u8>> {
    const PIECE: u64 = 1 << 20;
    let mut bytes = Vec::new();
    while (&mut *stream).take(PIECE).read_to_end(&mut bytes)? > 0 {
        let read = bytes.len() as u64;
        if read > most {
            return Err(io::Error::other(format!("more than {most} bytes")));
        }
        progress.bytes(read, size);
    }
    Ok(bytes)
}

fn decoded(bytes: Vec<u8>, form: Form) -> Result<Input, Failed> {
    let text = is_text(&bytes);
    match form {
        Form::Told if text => (),
        Form::Hex if text => (),
        Form::Hex => return Err("not hex: it is not text".into()),
        _ => return Ok(Input::new(bytes, false)),
    }
    let text = String::from_utf8_lossy(&bytes);
    let bytes = from_hex(&text).map_err(|e| match form {
        Form::Hex => format!("not hex: {e}"),
        _ => format!("text, but not hex: {e} (--raw takes it as bytes)"),
    })?;
    Ok(Input::new(bytes, true))
}

/// Printable ASCII, tabs and ends of lines.
fn is_text(bytes: &[u8]) -> bool {
    let printed = |b: &u8| matches!(b, b' '..=b'~' | b'\t' | b'\r' | b'\n');
    bytes.iter().all(printed)
}

/// The bytes of plain hex (together or parted by spaces, colons, commas; with `0x` or `\x`) or of a dump as xxd, hexdump -C and Wireshark
/// print it: an offset, bytes, and their text.
pub fn from_hex(text: &str) -> Result<Vec<u8>, String> {
    let mut dump = Dump::default();
    for (number, line) in text.lines().enumerate() {
        let line = line.trim_end();
        dump.line(line)
            .map_err(|e| format!("line {}: {e}", number + 1))?;
    }
    match dump.bytes.is_empty() {
        true => Err("it has no digits".into()),
        false => Ok(dump.bytes),
    }
}

#[derive(Default)]
struct Dump {
    bytes: Vec<u8>,
    /// The offset of the first byte, once a line has one.
    base: Option<usize>,
    /// The bytes of the last line, and whether a line `*` says that it is repeated.
    last: Vec<u8>,
    repeated: bool,
}

impl Dump {
    fn line(&mut self, line: &str) -> Result<(), String> {
        if line.is_empty() {
            return Ok(());
        }
        if line == "*" && !self.last.is_empty() {
            self.repeated = true;
            return Ok(());
        }
        let row = match self.offset(line) {
            Some((offset, body)) => {
                self.reach(offset)?;
                shown_bytes(body).map_or_else(|| digits(body), Ok)?
            }
            None => digits(line)?,
        };
        self.bytes.extend(&row);
        self.last = row;
        Ok(())
    }

    /// The offset that a line of a dump begins with, and what stands behind it.
    fn offset<'a>(&self, line: &'a str) -> Option<(usize, &'a str)> {
        let line = line.trim_start();
        let end = line.find(|c: char| !c.is_ascii_hexdigit());
        let (head, body) = line.split_at(end.unwrap_or(line.len()));
        let offset = usize::from_str_radix(head, 16).ok()?;
        let begun = self.base.is_some();
        let parted = body.starts_with("  ") || body.starts_with('\t');
        let first = body.starts_with(": ") || parted && (offset == 0 || body.ends_with('|'));
        let next = begun && (body.is_empty() || parted || body.starts_with(':'));
        let is = (4..=16).contains(&head.len()) && (first || next);
        is.then(|| (offset, body.strip_prefix(':').unwrap_or(body)))
    }

    /// Goes to the offset of a line: repeats the last line up to it where `*` stood.
    fn reach(&mut self, offset: usize) -> Result<(), String> {
        const MOST: usize = 1 << 26;
        let base = *self
            .base
            .get_or_insert(offset.wrapping_sub(self.bytes.len()));
        let wanted = offset.wrapping_sub(base);
        if self.repeated && wanted < MOST {
            let missing = wanted.saturating_sub(self.bytes.len());
            let again = self.last.iter().copied().cycle();
            self.bytes.extend(again.take(missing));
        }
        self.repeated = false;
        match wanted == self.bytes.len() {
            true => Ok(()),
            false => Err(format!(
                "its offset is {offset:#x}, but {} bytes stand before it",
                self.bytes.len()
            )),
        }
    }
}

/// The bytes of a dump's line that shows them as text too, behind two spaces or more.
fn shown_bytes(body: &str) -> Option<Vec<u8>> {
    let gaps = body.match_indices("  ").map(|(at, _)| at);
    gaps.filter(|at| *at > 0).find_map(|at| {
        let bytes = digits(&body[..at]).ok().filter(|b| !b.is_empty())?;
        let text = seen(&bytes);
        let rest = &body[at..];
        let before = rest
            .strip_suffix(&format!("|{text}|"))
            .or_else(|| rest.strip_suffix(text.trim_end()))?;
        before.trim().is_empty().then_some(bytes)
    })
}

/// The bytes of pairs of digits.
fn digits(text: &str) -> Result<Vec<u8>, String> {
    let plain = text
        .replace("0x", " ")
        .replace("0X", " ")
        .replace("\\x", " ");
    let parts = |c: char| c.is_whitespace() || ":,;\"\\".contains(c);
    let mut bytes = Vec::new();
    for word in plain.split(parts).filter(|w| !w.is_empty()) {
        let pairs = word.as_bytes().chunks(2).map(pair);
        let found: Option<Vec<u8>> = pairs.collect();
        bytes.extend(found.ok_or_else(|| format!("'{word}' is no pairs of digits"))?);
    }
    Ok(bytes)
}

fn pair(digits: &[u8]) -> Option<u8> {
    let digit = |b: &u8| (*b as char).to_digit(16).map(|n| n as u8);
    match digits {
        [high, low] => Some(digit(high)? << 4 | digit(low)?),
        _ => None,
    }
}
