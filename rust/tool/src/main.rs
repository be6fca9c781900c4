//! The program `rimonakh`.

use rimonakh_tool::{run, Streams};
use std::io::{stderr, stdin, stdout, IsTerminal, Write};
use std::process::ExitCode;

fn main() -> ExitCode {
    let args: Result<Vec<String>, _> = std::env::args_os()
        .skip(1)
        .map(|a| a.into_string())
        .collect();
    let colours = std::env::var_os("NO_COLOR").is_none_or(|v| v.is_empty());
    let Ok(args) = args else {
        let _ = writeln!(stderr(), "rimonakh: an argument is not UTF-8");
        return ExitCode::from(2);
    };
    let mut streams = Streams {
        stdin: &mut stdin().lock(),
        stdout: &mut stdout(),
        stderr: &mut stderr(),
        colour_out: colours && stdout().is_terminal(),
        colour_err: colours && stderr().is_terminal(),
        progress: stderr().is_terminal(),
    };
    ExitCode::from(run(args, &mut streams))
}
