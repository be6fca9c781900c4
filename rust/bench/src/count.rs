//! Instructions of each row and side: this program under valgrind's callgrind, which writes a file for each call of `measured`.

use crate::measure::columns;
use std::path::Path;
use std::process::{Command, ExitCode};
use std::{env, fs, io, process};

pub fn count(only: &str) -> ExitCode {
    let folder = env::temp_dir().join(format!("bench-{}", process::id()));
    let done = fs::create_dir(&folder).and_then(|()| counted(&folder, only));
    let removed = fs::remove_dir_all(&folder);
    match done.and(removed) {
        Ok(()) => ExitCode::SUCCESS,
        Err(e) => {
            eprintln!("bench: {e}");
            ExitCode::FAILURE
        }
    }
}

fn counted(folder: &Path, only: &str) -> io::Result<()> {
    let output = Command::new("valgrind")
        .args([
            "--tool=callgrind",
            "--toggle-collect=measured",
            "--dump-after=measured",
        ])
        .arg(format!("--callgrind-out-file={}/counts", folder.display()))
        .arg(env::current_exe()?)
        .args(["once", only])
        .output()?;
    if !output.status.success() {
        let said = String::from_utf8_lossy(&output.stderr);
        return Err(io::Error::other(format!("callgrind failed: {said}")));
    }
    println!(
        "{}",
        columns("instructions", ["library", "careful", "ratio"])
    );
    let rows = String::from_utf8_lossy(&output.stdout).into_owned();
    for (k, row) in rows.lines().enumerate() {
        let (name, things) = row.split_once('\t').unwrap_or((row, "1"));
        let things: f64 = things.parse().map_err(io::Error::other)?;
        let library = total(folder, 2 * k + 1)? / things;
        let careful = total(folder, 2 * k + 2)? / things;
        let ratio = format!("{:.2}", library / careful);
        let [library, careful] = [library, careful].map(|n| format!("{n:.1}"));
        println!("{}", columns(name, [&library, &careful, &ratio]));
    }
    Ok(())
}

/// The instructions in the file of the call with this number, from 1.
fn total(folder: &Path, call: usize) -> io::Result<f64> {
    let path = folder.join(format!("counts.{call}"));
    let text = fs::read_to_string(&path)?;
    let line = text
        .lines()
        .find_map(|l| l.strip_prefix("totals: ").or(l.strip_prefix("summary: ")));
    let total = line.and_then(|l| l.split_whitespace().next()?.parse().ok());
    total.ok_or_else(|| io::Error::other(format!("{}: no total", path.display())))
}
