//! The program `rimonakh`, for support and operators: it looks at references, snapshots and recordings through the library. What is
//! accepted, refused, or replayed with which answer is the library's alone; the words around it are this crate's, and not proved.

pub mod args;
pub mod explain;
pub mod input;
pub mod json;
pub mod liveness;
pub mod names;
pub mod page;
pub mod progress;
mod refusal;
pub mod show;

use args::{Command, Request};
use input::Input;
use progress::Progress;
use refusal::Refusal;
use rimonakh::{wire_code, Error, Reference, Snapshot, Table};
use show::replay::Replay;
use show::Paint;
use std::io::{ErrorKind, Read, Write};

/// References and snapshots that can be accepted are far shorter.
const MOST_READ: u64 = 64 << 20;

/// What the program is run with: its streams, and whether they are terminals.
pub struct Streams<'a> {
    pub stdin: &'a mut dyn Read,
    pub stdout: &'a mut dyn Write,
    pub stderr: &'a mut dyn Write,
    pub colour_out: bool,
    pub colour_err: bool,
    pub progress: bool,
}

/// How a command ends.
enum End {
    /// Printed, status 0.
    Done(String),
    /// Printed, status 1: a replay that differs.
    Differs(String),
    /// Refused by the library, status 1.
    Refused(Refusal),
    /// Wrong use, or a read or write that failed, status 2.
    Failed(String),
}

/// Runs the program; its exit status.
pub fn run(args: impl IntoIterator<Item = String>, streams: &mut Streams) -> u8 {
    let request = match args::parse(args) {
        Ok(request) => request,
        Err(e) => return complain(streams, &format!("{e} (rimonakh --help)")),
    };
    let paint = Paint(streams.colour_out && request.output.is_none());
    let (text, status) = match perform(&request, streams, paint) {
        End::Done(text) => (text, 0),
        End::Differs(text) => (text, 1),
        End::Refused(refusal) if request.json => (format!("{}\n", refusal.json()), 1),
        End::Refused(refusal) => {
            let text = refusal.text(Paint(streams.colour_err));
            let _ = streams.stderr.write_all(text.as_bytes());
            return 1;
        }
        End::Failed(e) => return complain(streams, &e),
    };
    let (name, written) = match &request.output {
        Some(path) => (path.as_str(), std::fs::write(path, text)),
        None => {
            let written = streams.stdout.write_all(text.as_bytes());
            (
                "standard output",
                written.and_then(|()| streams.stdout.flush()),
            )
        }
    };
    match written {
        Err(e) if e.kind() != ErrorKind::BrokenPipe => complain(streams, &format!("{name}: {e}")),
        _ => status,
    }
}

/// Says what went wrong; the status of wrong use and of failed reads and writes.
fn complain(streams: &mut Streams, what: &str) -> u8 {
    let text = Paint(streams.colour_err).red(&format!("rimonakh: {what}"));
    let _ = writeln!(streams.stderr, "{text}");
    2
}

fn perform(request: &Request, streams: &mut Streams, paint: Paint) -> End {
    let ended = match request.command {
        Command::Help => Ok(End::Done(args::HELP.into())),
        Command::Version => Ok(End::Done(version())),
        Command::Answer => answer(request),
        Command::Objref => objref(request, streams, paint),
        Command::Snapshot => snapshot(request, streams, paint),
        Command::Status => status(request, streams),
        Command::Replay => replay(request, streams, paint),
    };
    ended.unwrap_or_else(|end| end)
}

fn version() -> String {
    let (major, minor, patch) = rimonakh::version();
    let own = env!("CARGO_PKG_VERSION");
    format!("rimonakh {own}, over the library {major}.{minor}.{patch}\n")
}

/// The whole input, of at most so many bytes.
fn read(request: &Request, streams: &mut Streams, most: u64) -> Result<Input, End> {
    let mut progress = Progress::new(streams.progress);
    let read = request.source.read(most, streams.stdin, &mut progress);
    read.map_err(End::Failed)
}

/// Text, or its JSON where that is asked for.
fn printed(
    request: &Request,
    text: impl FnOnce() -> Result<String, Error>,
    json: impl FnOnce() -> Result<json::Json, Error>,
) -> Result<String, End> {
    let made = match request.json {
        true => json().map(|json| format!("{json}\n")),
        false => text(),
    };
    made.map_err(|e| End::Failed(format!("accepted, then refused: {e}")))
}

fn objref(request: &Request, streams: &mut Streams, paint: Paint) -> Result<End, End> {
    let mut input = read(request, streams, MOST_READ)?;
    if request.find {
        input.find().map_err(End::Failed)?;
    }
    let bytes = &input.bytes[..];
    Reference::judge(bytes).map_err(|e| End::Refused(Refusal::of_reference(&input, e)))?;
    let text = || show::reference::text(bytes, input.found, paint);
    let json = || show::reference::json(bytes, input.found);
    printed(request, text, json).map(End::Done)
}

/// The entries of the snapshot that is read.
fn loaded(request: &Request, streams: &mut Streams) -> Result<Snapshot, End> {
    let input = read(request, streams, MOST_READ)?;
    Snapshot::read(&input.bytes).map_err(|e| End::Refused(Refusal::of_snapshot(&input, e)))
}

fn snapshot(request: &Request, streams: &mut Streams, paint: Paint) -> Result<End, End> {
    let entries = loaded(request, streams)?;
    let text = || show::snapshot::text(&entries, paint);
    printed(request, text, || show::snapshot::json(&entries)).map(End::Done)
}

fn status(request: &Request, streams: &mut Streams) -> Result<End, End> {
    let entries = loaded(request, streams)?;
    let title = request.title.as_deref().unwrap_or("Resolver status");
    Ok(End::Done(page::page(&entries, title)))
}

fn replay(request: &Request, streams: &mut Streams, paint: Paint) -> Result<End, End> {
    let input = read(request, streams, u64::MAX)?;
    let bytes = &input.bytes[..];
    let mut progress = Progress::new(streams.progress);
    let outcome = progress
        .wait("replaying", || Table::new(0).replay(bytes))
        .map_err(|e| End::Refused(Refusal::of_recording(&input, e)))?;
    let replay = Replay::new(bytes, outcome)
        .map_err(|e| End::Failed(format!("replayed, then refused: {e}")))?;
    drop(progress);
    let text = printed(request, || Ok(replay.text(paint)), || Ok(replay.json()))?;
    Ok(match outcome.differs {
        None => End::Done(text),
        Some(_) => End::Differs(text),
    })
}

/// What an answer number means, and the code that goes out on the wire for it.
fn answer(request: &Request) -> Result<End, End> {
    let number = request.number;
    let refusal = match number {
        0 => None,
        n => Some(Error::try_from(n).map_err(|_| End::Failed(format!("{n} is no answer number")))?),
    };
    let words = refusal.map_or("done", Error::words);
    let code = wire_code(&refusal.map_or(Ok(()), Err));
    let text = || Ok(format!("{number}: {words}; on the wire {code:#010x}\n"));
    let json = || {
        Ok(json::Json::Object(vec![
            ("answer", json::number(number)),
            ("words", json::text(words)),
            ("wire_code", json::number(code)),
        ]))
    };
    printed(request, text, json).map(End::Done)
}
