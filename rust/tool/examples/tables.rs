//! Writes the snapshots of an empty, a usual and a full table to a folder, to look at their pages: `cargo run --example tables FOLDER`.

#[path = "../tests/common/mod.rs"]
mod common;

use rimonakh::Table;
use std::path::PathBuf;

fn main() -> std::io::Result<()> {
    let folder = PathBuf::from(std::env::args_os().nth(1).unwrap_or_else(|| ".".into()));
    let tables = [
        ("empty", Table::new(100)),
        ("usual", common::usual()),
        ("full", common::full()),
    ];
    for (name, table) in tables {
        let bytes = table.snapshot().expect("a sound table");
        std::fs::write(folder.join(format!("{name}.snapshot")), bytes)?;
    }
    Ok(())
}
