//! How much a table, a list, a reference and a header hold.

/// The length of a table's array, in words.
pub const WORDS: usize = 8192;

/// The length of a table's store, in bytes: all binding lists together.
pub const BYTES: usize = 8192;

/// Exporters of a table.
pub const EXPORTERS: usize = 16;
/// Objects of a table.
pub const OBJECTS: usize = 128;
/// Interfaces of a table.
pub const INTERFACES: usize = 256;
/// Ping sets of a table.
pub const SETS: usize = 32;

/// Clients with private references: 0 to 7.
pub const CLIENTS: u32 = 8;

/// Seconds after which an unheard set or pinged object ends.
pub const SILENCE: u64 = 360;

/// The longest binding list of an exporter, in bytes.
pub const LONGEST_LIST: usize = 2048;

/// The longest snapshot of a table, in bytes.
pub const LONGEST_SNAPSHOT: usize = 64_698;

/// The most OIDs, items or protocols in one list.
pub const MOST_LISTED: usize = 65_535;

/// The most records that are replayed; a recording of more is [`Error::TooMany`](crate::Error::TooMany).
pub const MOST_RECORDS: u64 = 16_384;

/// References nested in references, the outermost among them.
pub const MOST_LEVELS: usize = 8;

/// The most extensions of a call header.
pub const MOST_EXTENSIONS: usize = 32;

/// The highest minor version of a call header.
pub const MOST_MINOR: u16 = 7;

/// Which word of a table's array and which byte of its store holds what. A table that was saved by a version with another number is
/// swapped by its snapshot.
pub const TABLE_LAYOUT: u32 = 3;
