//! Reads a recording.

use super::fault::{Cut, Form, Rule, Section};
use super::fields::Rest;
use super::{Answer, Call, Fault, Record};
use crate::limits::MOST_RECORDS;
use crate::Error;
use core::fmt;
use core::iter::FusedIterator;

/// The records of a recording, in order: of bytes that [`Table::replay`](crate::Table::replay) does not refuse, and no others.
/// Nothing is copied.
#[derive(Clone)]
pub struct Records<'a> {
    walk: Walk<'a>,
    left: usize,
}

impl<'a> Records<'a> {
    /// Reads a recording, or says where and why it is refused: bytes that end, before any record is looked into; then a record that is
    /// not in the form of its call; then bytes behind the last; then the number of records.
    pub fn read(bytes: &'a [u8]) -> Result<Records<'a>, Fault> {
        let mut walk = Walk {
            bytes,
            at: 0,
            record: 0,
        };
        let count = u64::from_le_bytes(walk.array(Cut::Count)?);
        let first = walk;
        for _ in 0..count {
            walk.sections()?;
        }
        walk = first;
        for _ in 0..count {
            walk.record()?;
        }
        match walk.rest().len() {
            0 => (),
            left => return Err(Fault::layout(walk.at, Rule::LeftOver(left))),
        }
        if count > MOST_RECORDS {
            let (error, rule) = (Error::TooMany, Rule::TooMany(count));
            return Err(Fault { error, at: 0, rule });
        }
        Ok(Records {
            walk: first,
            left: count as usize,
        })
    }
}

/// Shows the records that are left.
impl fmt::Debug for Records<'_> {
    fn fmt(&self, f: &mut fmt::Formatter<'_>) -> fmt::Result {
        f.debug_list().entries(self.clone()).finish()
    }
}

impl<'a> Iterator for Records<'a> {
    type Item = Record<'a>;

    fn next(&mut self) -> Option<Record<'a>> {
        self.left = self.left.checked_sub(1)?;
        self.walk.record().ok() // every record was read before
    }

    fn size_hint(&self) -> (usize, Option<usize>) {
        (self.left, Some(self.left))
    }
}

impl ExactSizeIterator for Records<'_> {}
impl FusedIterator for Records<'_> {}

/// Bytes that are read from the front, and the number of the record that is being read.
#[derive(Clone, Copy)]
struct Walk<'a> {
    bytes: &'a [u8],
    at: usize,
    record: u64,
}

/// A section with its place.
type Placed<'a> = (usize, &'a [u8]);

impl<'a> Walk<'a> {
    fn rest(&self) -> &'a [u8] {
        &self.bytes[self.at..]
    }

    fn broken(&self, at: usize, form: Form) -> Fault {
        Fault::layout(at, Rule::Broken(self.record, form))
    }

    fn take(&mut self, n: u64, what: Cut) -> Result<&'a [u8], Fault> {
        let left = self.rest();
        let taken = usize::try_from(n).ok().and_then(|n| left.get(..n));
        let taken = taken.ok_or(Fault {
            error: Error::Short,
            at: self.at,
            rule: Rule::Cut(what, n, left.len()),
        })?;
        self.at += taken.len();
        Ok(taken)
    }

    fn array<const N: usize>(&mut self, what: Cut) -> Result<[u8; N], Fault> {
        let taken = self.take(N as u64, what)?;
        Ok(core::array::from_fn(|k| taken[k]))
    }

    fn section(&mut self, name: Section) -> Result<Placed<'a>, Fault> {
        let size = u64::from_le_bytes(self.array(Cut::Size(name, self.record))?);
        let at = self.at;
        Ok((at, self.take(size, Cut::Section(name, self.record))?))
    }

    /// The sections of the next record.
    fn sections(&mut self) -> Result<[Placed<'a>; 5], Fault> {
        self.record += 1;
        Ok([
            self.section(Section::Call)?,
            self.section(Section::First)?,
            self.section(Section::Second)?,
            self.section(Section::Answer)?,
            self.section(Section::Shown)?,
        ])
    }

    /// The next record.
    fn record(&mut self) -> Result<Record<'a>, Fault> {
        let sections = self.sections()?;
        let [(at, call), (_, first), (_, second), (_, answer), (_, shown)] = sections;
        let (code, numbers) = call.split_first().ok_or(self.broken(at, Form::NoCode))?;
        let blank = Call::from_rest(*code, &mut Rest::default());
        self.fits(&blank.ok_or(self.broken(at, Form::Code(*code)))?, &sections)?;
        let mut rest = Rest {
            numbers,
            lists: [first, second],
        };
        let call = Call::from_rest(*code, &mut rest).ok_or_else(|| {
            let mark = at + numbers.len() - rest.numbers.len();
            self.broken(mark, Form::Mark(self.bytes[mark]))
        })?;
        let (number, results) = answer.split_first_chunk().unwrap_or((&[0; 8], &[]));
        let answer = Answer {
            number: u64::from_le_bytes(*number),
            results: call.results(results),
        };
        Ok(Record {
            call,
            answer,
            shown,
        })
    }

    /// Whether the numbers, lists and answer of a record are as long as those of its call.
    fn fits(&self, call: &Call, sections: &[Placed; 5]) -> Result<(), Fault> {
        let [numbers, lists] = call.split();
        let size: usize = numbers.map(|(_, field)| field.size()).sum();
        match sections[0].1.len() - 1 {
            have if have == size => (),
            have => {
                let form = Form::Numbers(call.name(), have, size);
                return Err(self.broken(sections[0].0 + 1, form));
            }
        }
        let mut elements = lists.map(|(_, field)| field.size());
        for (name, (at, list)) in [Section::First, Section::Second]
            .into_iter()
            .zip(&sections[1..])
        {
            let form = match (list.len(), elements.next()) {
                (0, None) => continue,
                (have, None) => Form::NoList(call.name(), name, have),
                (have, Some(each)) if have % each == 0 => continue,
                (have, Some(each)) => Form::Elements(name, have, each),
            };
            return Err(self.broken(*at, form));
        }
        let results = call.results(&[]);
        let size: usize = 8 + results
            .fields()
            .map(|(_, field)| field.size())
            .sum::<usize>();
        match sections[3].1.len() {
            have if have == size => Ok(()),
            have => Err(self.broken(sections[3].0, Form::Answer(call.name(), have, size))),
        }
    }
}
