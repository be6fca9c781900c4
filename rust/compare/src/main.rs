//! Drives the library and an independent model of document 01 with the same inputs, and says where they differ.
//!
//!     compare             the stored lines, then a short comparison with a fixed seed
//!     compare full [SEED] more than a million calls and a million byte inputs, by default with a new seed
//!     compare make        writes the outputs of the stored lines anew, from the model alone

mod bytes;
mod call;
mod calls;
mod decode;
mod fragments;
mod generate;
mod headers;
mod lines;
mod model_side;
mod orders;
mod random;
mod recordings;
mod shrink;
mod subject;
mod tally;

use std::process::ExitCode;
use std::time::{Instant, SystemTime, UNIX_EPOCH};
use subject::{Library, Plain};
use tally::Tally;

/// The sides differ, and where was printed.
pub struct Differs;

/// How much is compared: calls, calls on tables that are changed behind them, byte inputs, replays.
struct Scale {
    calls: u64,
    pokes: u64,
    inputs: u64,
    replays: u64,
}

fn compare(seed: u64, scale: &Scale) -> Result<(), Differs> {
    println!("seed {seed}");
    let mut all = Tally::default();
    let part = |title: &str, compared: &dyn Fn() -> Result<Tally, Differs>| {
        let began = Instant::now();
        let tally = compared()?;
        tally.print(title);
        println!("  {:.1} s", began.elapsed().as_secs_f64());
        Ok(tally)
    };
    let (calls, pokes) = (scale.calls, scale.pokes);
    bytes::wire_codes()?;
    lines::compare()?;
    all.join(&part("references, lists, contexts and headers", &|| {
        bytes::compare(seed, scale.inputs)
    })?);
    all.join(&part("references in fragments", &|| {
        fragments::compare(seed, scale.inputs / 4)
    })?);
    all.join(&part("calls", &|| {
        calls::compare::<Library>(seed, calls, false)
    })?);
    all.join(&part("calls on changed tables", &|| {
        calls::compare::<Library>(seed, pokes, true)
    })?);
    all.join(&part("recordings", &|| {
        recordings::compare(seed, scale.replays)
    })?);
    part("plain Rust", &|| {
        calls::compare::<Plain>(seed, calls / 4, false)
    })?;
    part("plain Rust on changed tables", &|| {
        calls::compare::<Plain>(seed, pokes / 4, true)
    })?;
    let missing = all.missing();
    if !missing.is_empty() {
        println!("FAILED: these did not occur: {missing:?}");
        return Err(Differs);
    }
    Ok(())
}

fn main() -> ExitCode {
    let words: Vec<String> = std::env::args().skip(1).collect();
    let (seed, scale) = match words.iter().map(String::as_str).collect::<Vec<_>>()[..] {
        [] => (
            1,
            Scale {
                calls: 300_000,
                pokes: 100_000,
                inputs: 400_000,
                replays: 8_000,
            },
        ),
        ["full"] | ["full", _] => {
            let time = || {
                SystemTime::now()
                    .duration_since(UNIX_EPOCH)
                    .map_or(0, |t| t.as_secs())
            };
            let seed = words.get(1).map_or_else(|| Ok(time()), |s| s.parse());
            let Ok(seed) = seed else {
                eprintln!("a seed is a number");
                return ExitCode::FAILURE;
            };
            (
                seed,
                Scale {
                    calls: 1_200_000,
                    pokes: 400_000,
                    inputs: 1_200_000,
                    replays: 100_000,
                },
            )
        }
        ["make"] => {
            lines::make();
            return ExitCode::SUCCESS;
        }
        _ => {
            eprintln!("usage: compare [full [SEED] | make]");
            return ExitCode::FAILURE;
        }
    };
    match compare(seed, &scale) {
        Ok(()) => {
            println!("the library and the model agree");
            ExitCode::SUCCESS
        }
        Err(Differs) => ExitCode::FAILURE,
    }
}
