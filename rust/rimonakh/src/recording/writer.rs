//! Writes a recording.

use super::{Answer, Call, Record, Results};
use crate::Result;
use alloc::vec;
use alloc::vec::Vec;
use core::fmt;

/// Records that are written down. The records of another recording can be collected:
///
/// ```
/// use rimonakh::recording::{Records, Recording};
/// use rimonakh::{Recorder, Table};
///
/// let mut day = Recorder::new(1000);
/// day.clock(1120)?;
/// let reset: Recording = Records::read(day.recording())?.take(1).collect();
/// assert_eq!(reset.records(), 1);
/// assert_eq!(Table::new(0).replay(reset.bytes())?.differs, None);
/// # Ok::<(), rimonakh::Error>(())
/// ```
#[derive(Clone, PartialEq, Eq)]
pub struct Recording(Vec<u8>);

/// Shows the number of records.
impl fmt::Debug for Recording {
    fn fmt(&self, f: &mut fmt::Formatter<'_>) -> fmt::Result {
        let mut shown = f.debug_struct("Recording");
        shown.field("records", &self.records()).finish()
    }
}

impl Recording {
    /// Of no records.
    pub fn new() -> Recording {
        Recording(vec![0; 8])
    }

    /// How many records it has.
    pub fn records(&self) -> u64 {
        let (n, _) = self.0.split_first_chunk().expect("the number of records");
        u64::from_le_bytes(*n)
    }

    /// The recording so far.
    pub fn bytes(&self) -> &[u8] {
        &self.0
    }

    /// The recording.
    pub fn into_bytes(self) -> Vec<u8> {
        self.0
    }

    /// Writes one record more. One whose results are not those of its call makes the recording one that is refused.
    pub fn push(&mut self, record: &Record) {
        let number = self.records() + 1;
        let Recording(out) = self;
        let [numbers, mut lists] = record.call.split();
        section(out, |out| {
            out.push(record.call.code());
            numbers.for_each(|(_, number)| number.put(out));
        });
        for _ in 0..2 {
            section(out, |out| {
                lists.next().into_iter().for_each(|(_, list)| list.put(out))
            });
        }
        section(out, |out| {
            out.extend(record.answer.number.to_le_bytes());
            let results = record.answer.results.fields();
            results.for_each(|(_, result)| result.put(out));
        });
        section(out, |out| out.extend(record.shown));
        out[..8].copy_from_slice(&number.to_le_bytes());
    }

    /// Records a call with its number, its results and what it showed; a refused one has zeros for results and shows nothing.
    pub(super) fn tell<'s, T>(
        &mut self,
        call: Call,
        done: &Result<T>,
        results: impl FnOnce(&T) -> Results,
        shown: impl FnOnce(&T) -> &'s [u8],
    ) {
        let (number, results, shown) = match done {
            Ok(value) => (0, results(value), shown(value)),
            Err(e) => (e.number(), call.results(&[]), &[][..]),
        };
        let number = number.into();
        let answer = Answer { number, results };
        self.push(&Record {
            call,
            answer,
            shown,
        });
    }

    /// Records a call that shows nothing; what was answered.
    pub(super) fn plain<T: Copy + Into<Results>>(
        &mut self,
        call: Call,
        done: Result<T>,
    ) -> Result<T> {
        self.tell(call, &done, |value| (*value).into(), |_| &[]);
        done
    }

    /// Records a call that writes so many bytes at the front of a buffer; what was answered.
    pub(super) fn written<T: Copy + Into<Results>>(
        &mut self,
        call: Call,
        done: Result<T>,
        buffer: &[u8],
        length: impl FnOnce(T) -> usize,
    ) -> Result<T> {
        let shown = |value: &T| &buffer[..length(*value)];
        self.tell(call, &done, |value| (*value).into(), shown);
        done
    }
}

/// A section: the number of its bytes, and these.
fn section(out: &mut Vec<u8>, write: impl FnOnce(&mut Vec<u8>)) {
    let at = out.len();
    out.extend([0; 8]);
    write(out);
    let size = (out.len() - at - 8) as u64;
    out[at..at + 8].copy_from_slice(&size.to_le_bytes());
}

impl Default for Recording {
    fn default() -> Recording {
        Recording::new()
    }
}

impl<'a> Extend<Record<'a>> for Recording {
    fn extend<I: IntoIterator<Item = Record<'a>>>(&mut self, records: I) {
        records.into_iter().for_each(|record| self.push(&record));
    }
}

impl<'a> FromIterator<Record<'a>> for Recording {
    fn from_iter<I: IntoIterator<Item = Record<'a>>>(records: I) -> Recording {
        let mut recording = Recording::new();
        recording.extend(records);
        recording
    }
}
