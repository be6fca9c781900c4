//! The library against careful plain Rust that keeps the same tables and judges as often: same machine, same input, in turns.
//!
//!     bench [times]      nanoseconds of each side, medians of the turns; library / careful Rust, median and quartiles of the turns
//!     bench markdown     the same as the tables of docs/SPEED.md
//!     bench count        instructions of each side, by valgrind's callgrind
//!     bench names        the rows
//!
//! A second word selects the rows whose name has it.

mod bytes;
mod calls;
mod count;
mod data;
mod lists;
mod measure;

use measure::{Bench, Mode};
use std::process::ExitCode;

fn main() -> ExitCode {
    let mut words = std::env::args().skip(1);
    let mode = words.next().unwrap_or_else(|| "times".into());
    let only = words.next().unwrap_or_default();
    let mode = match mode.as_str() {
        "times" => Mode::Times,
        "markdown" => Mode::Markdown,
        "names" => Mode::Names,
        "once" => Mode::Once, // what `count` runs under callgrind
        "count" => return count::count(&only),
        _ => {
            eprintln!("bench [times | markdown | count | names] [ROWS]");
            return ExitCode::FAILURE;
        }
    };
    let mut bench = Bench::new(mode, only);
    lists::request_9(&mut bench);
    lists::lengths(&mut bench);
    calls::judging(&mut bench);
    calls::counts(&mut bench);
    calls::pings(&mut bench);
    calls::resolving(&mut bench);
    calls::snapshots(&mut bench);
    calls::replays(&mut bench);
    bytes::references(&mut bench);
    bytes::nests(&mut bench);
    bytes::contexts(&mut bench);
    bytes::headers(&mut bench);
    bytes::fragments(&mut bench);
    ExitCode::SUCCESS
}
