//! The records of a recording whose last write was torn.

/// The records from byte 8 that are whole.
#[derive(Clone, Copy, Debug, PartialEq, Eq)]
pub struct Whole {
    /// How many.
    pub count: u64,
    /// The byte behind the last; 0 where eight bytes are not there.
    pub end: usize,
}

/// The records from byte 8 that are whole and well formed, [`MOST_RECORDS`](crate::limits::MOST_RECORDS) at most; whatever the eight
/// bytes before them are, and whatever stands behind them. Of a recording whose last write was torn these are the records that were
/// written: put their number into the first eight bytes, and the bytes up to the end are replayed.
///
/// ```
/// use rimonakh::{recording, Recorder, Table};
///
/// let mut day = Recorder::new(1000);
/// day.clock(1120)?;
/// let mut torn = day.recording()[..150].to_vec();
/// let found = recording::whole(&torn);
/// assert_eq!((found.count, found.end), (1, 65));
/// torn.truncate(found.end);
/// torn[..8].copy_from_slice(&found.count.to_le_bytes());
/// assert_eq!(Table::new(0).replay(&torn)?.differs, None);
/// # Ok::<(), rimonakh::Error>(())
/// ```
#[must_use]
pub fn whole(recording: &[u8]) -> Whole {
    let r = archive!(rimonakh_whole_records([recording]));
    Whole {
        count: r.count,
        end: r.end,
    }
}
