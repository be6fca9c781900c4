//! Recordings (docs/RECORDING.md).

use super::{Fault, Walked};
use rimonakh::recording::{self, Records};

/// Why bytes are no recording that is replayed: what the crate's reader says.
pub fn recording(bytes: &[u8]) -> Walked<()> {
    let fault = |f: recording::Fault| Fault {
        number: f.error.number(),
        at: f.at,
        rule: f.to_string(),
    };
    Records::read(bytes).map(drop).map_err(fault)
}
