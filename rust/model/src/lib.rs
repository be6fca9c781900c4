//! Documents 01 and 02 on plain vectors, written from the documents alone: bytes (references, lists, headers), contexts, entries
//! and calls, snapshots, recordings.
//! A refusal is `Err` with its answer number.

pub mod bytes;
pub mod contexts;
pub mod entries;
pub mod extensions;
pub mod fragments;
pub mod recording;
pub mod snapshot;

/// A GUID as its sixteen bytes on the wire.
pub type Guid = [u8; 16];

/// The code on the wire of an answer number.
pub fn wire_code(number: u32) -> u32 {
    match number {
        0 | 12 => 0,
        4 => 1910,
        5 => 1911,
        11 => 1912,
        6 => 0x8004_01FB,
        16 => 0x8001_0110,
        _ => 0x8000_4005,
    }
}
