//! A proved DCOM object resolver: object references, binding lists, call headers, and the table of exporters, objects,
//! interfaces and ping sets. Every call ends with an answer number; a refusal is an [`Error`] and changes nothing.
//!
//! ```
//! use rimonakh::{list, snapshot_clock, wire_code, Block, Error, Guid, Oid, Oxid, Reference, SetId, Stop, Table};
//!
//! let list = list::of(&[(7, "10.1.4.20[49500]")], &[])?; // one string binding: TCP
//! let iid = Guid::new(0x39c13a54, 0x011e, 0x11d0, [0x96, 0x75, 0x00, 0x20, 0xaf, 0xd8, 0xad, 0xb3]);
//! let (oxid, oid) = (Oxid(0x1101), Oid(0x7e0a));
//! let (unknown, ipid) = (Guid([1; 16]), Guid([2; 16]));
//!
//! // a server enters an object and hands out a reference to it
//! let mut table = Table::new(1000);
//! table.enter_exporter(oxid, unknown, &list)?;
//! table.enter_object(oid, oxid, ipid, iid, 5, false)?;
//! let block = Block { flags: 0, public: 5, oxid, oid, ipid };
//! let mut bytes = [0; 128];
//! let length = Reference::standard(iid, block).write(&list, &[], &mut bytes)?;
//!
//! // a client reads it, resolves the exporter, pings, and gives its references back
//! let reference = Reference::read(&bytes[..length])?;
//! assert!(Reference::strings(&bytes[..length])?.all(|binding| binding.address == "10.1.4.20[49500]"));
//! assert_eq!(table.next_stop(&bytes[..length])?, Stop::Exporter(&list));
//! let mut buffer = [0; 2048];
//! assert_eq!(table.resolve(reference.block.oxid, &mut buffer)?.unknown, unknown);
//! let set = table.complex_ping(SetId(0), 1, &[reference.block.oid], &[])?.set;
//! table.clock(1120)?;
//! table.simple_ping(set)?;
//!
//! // another box takes over, and goes on from the snapshot's clock by the seconds that pass there
//! let snapshot = table.snapshot()?;
//! let mut table = Table::new(0);
//! table.load_snapshot(&snapshot)?;
//! table.clock(snapshot_clock(&snapshot) + 5)?;
//! assert!(table.release(0, reference.block.ipid, 5, 0)?.object_went);
//! assert_eq!(table.add(0, ipid, 1, 0), Err(Error::NoInterface));
//! assert_eq!(wire_code(&table.add(0, ipid, 1, 0)), 0x800401FB);
//! # Ok::<(), Error>(())
//! ```
//!
//! The crate needs `alloc` and no `std`. A replay takes up to 220 KiB of stack; a load, [`Snapshot::read`] and the [`Debug`](core::fmt::Debug) of a
//! table, which load, 150 KiB; every other call 16 KiB. [`limits`] has how much a table, a list and a reference hold. What a table holds is shown by
//! [`Debug`](core::fmt::Debug), and has types in a [`Snapshot`]. A [`Recorder`] writes down calls with their answers; [`recording`] reads
//! them.
//!
//! The build links `librimonakh.a` of the folder `RIMONAKH_LIB_DIR`, if that is set; else the one that was built in this repository;
//! else the installed one of the crate's version, by `pkg-config`.

#![no_std]
#![deny(missing_docs)]
#![warn(clippy::too_many_lines)]

extern crate alloc;

#[macro_use]
mod archive;
mod error;
pub mod ffi;
mod fragments;
mod headers;
mod ids;
pub mod limits;
pub mod list;
pub mod recording;
mod references;
pub mod snapshot;
mod table;

pub use error::{wire_code, Error, NoRefusal};
pub use fragments::FragmentReader;
pub use headers::{Extension, Extensions, OrpcThat, OrpcThis, Read};
pub use ids::{Guid, NoGuid, Oid, Oxid, SetId};
pub use limits::{BYTES, LONGEST_SNAPSHOT, WORDS};
pub use list::{Part, SecurityBinding, StringBinding, Text};
pub use recording::recorder::{Outcome, Recorder, Tally};
pub use references::{Block, Context, Property, Reference};
pub use snapshot::Snapshot;
pub use table::{snapshot_clock, Counts, Item, Pinged, Released, Resolved, Stop, Table};

/// The version of the archive: major, minor and patch.
pub fn version() -> (u32, u32, u32) {
    let number = archive!(rimonakh_version());
    (number >> 16, number >> 8 & 0xFF, number & 0xFF)
}

/// `Ok` is answer 0.
pub type Result<T> = core::result::Result<T, Error>;
