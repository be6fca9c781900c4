//! Why bytes are no recording, and where.

use crate::limits::MOST_RECORDS;
use crate::Error;
use core::fmt;

/// The refusal of a recording: its number, the byte at which it is seen and, shown in words, the rule that is broken there.
#[derive(Clone, Copy, Debug, PartialEq, Eq)]
pub struct Fault {
    /// The refusal of [`Table::replay`](crate::Table::replay).
    pub error: Error,
    /// The place of the byte; of bytes that end, where what is cut begins.
    pub at: usize,
    pub(super) rule: Rule,
}

#[derive(Clone, Copy, Debug, PartialEq, Eq)]
pub(super) enum Rule {
    /// What is cut needs so many bytes, and so many are left.
    Cut(Cut, u64, usize),
    /// A record, by its number from 1, is not in the form of its call.
    Broken(u64, Form),
    /// So many bytes stand behind the last record.
    LeftOver(usize),
    TooMany(u64),
}

/// What is cut; a section by the number of its record, from 1.
#[derive(Clone, Copy, Debug, PartialEq, Eq)]
pub(super) enum Cut {
    Count,
    Size(Section, u64),
    Section(Section, u64),
}

#[derive(Clone, Copy, Debug, PartialEq, Eq)]
pub(super) enum Section {
    Call,
    First,
    Second,
    Answer,
    Shown,
}

/// How a record is not in the form of its call, which is told by its name.
#[derive(Clone, Copy, Debug, PartialEq, Eq)]
pub(super) enum Form {
    NoCode,
    Code(u8),
    /// The numbers of a call have so many bytes, not so many.
    Numbers(&'static str, usize, usize),
    /// The same of its answer.
    Answer(&'static str, usize, usize),
    /// The call has no such list, and here are so many bytes.
    NoList(&'static str, Section, usize),
    /// A list of so many bytes, and of its elements.
    Elements(Section, usize, usize),
    Mark(u8),
}

impl Fault {
    pub(super) fn layout(at: usize, rule: Rule) -> Fault {
        let error = Error::Layout;
        Fault { error, at, rule }
    }
}

impl fmt::Display for Section {
    fn fmt(&self, f: &mut fmt::Formatter<'_>) -> fmt::Result {
        f.write_str(match self {
            Section::Call => "call",
            Section::First => "first list",
            Section::Second => "second list",
            Section::Answer => "answer",
            Section::Shown => "shown bytes",
        })
    }
}

impl fmt::Display for Cut {
    fn fmt(&self, f: &mut fmt::Formatter<'_>) -> fmt::Result {
        match self {
            Cut::Count => f.write_str("the number of records"),
            Cut::Size(section, k) => write!(f, "the size of the {section} of record {k}"),
            Cut::Section(section, k) => write!(f, "the {section} of record {k}"),
        }
    }
}

impl fmt::Display for Form {
    fn fmt(&self, f: &mut fmt::Formatter<'_>) -> fmt::Result {
        match self {
            Form::NoCode => f.write_str("the call has no code"),
            Form::Code(code) => write!(f, "{code} is no code of a call"),
            Form::Numbers(call, have, want) => {
                write!(f, "the numbers of {call} have {have} bytes, not {want}")
            }
            Form::Answer(call, have, want) => {
                let what = "the answer number and results";
                write!(f, "{what} of {call} have {have} bytes, not {want}")
            }
            Form::NoList(call, list, have) => {
                write!(f, "{call} has no {list}, and here are {have} bytes")
            }
            Form::Elements(list, have, each) => {
                write!(
                    f,
                    "the {list} has {have} bytes, and its elements {each} each"
                )
            }
            Form::Mark(mark) => write!(f, "the no-ping mark is {mark}, not 0 or 1"),
        }
    }
}

impl fmt::Display for Fault {
    fn fmt(&self, f: &mut fmt::Formatter<'_>) -> fmt::Result {
        match self.rule {
            Rule::Cut(what, need, left) => {
                write!(f, "{what}: {need} bytes are needed, {left} are left")
            }
            Rule::Broken(k, form) => write!(f, "in record {k}: {form}"),
            Rule::LeftOver(1) => f.write_str("the recording ends here, with 1 byte left over"),
            Rule::LeftOver(n) => write!(f, "the recording ends here, with {n} bytes left over"),
            Rule::TooMany(n) => write!(f, "{n} records, where {MOST_RECORDS} are the most"),
        }
    }
}

impl core::error::Error for Fault {}

impl From<Fault> for Error {
    fn from(fault: Fault) -> Error {
        fault.error
    }
}
