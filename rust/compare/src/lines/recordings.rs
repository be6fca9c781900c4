//! Lines about one recording.
//!
//!     # a comment, printed as it stands
//!     *                       a new recording, of no records, of a table that was reset at 0
//!     CALL                    a call of `table.in`, performed and recorded with its answer; `i`, the load of the snapshot that `H` wrote last
//!     n count                 the last call so many times more
//!     F value                 every word of the table that is lent to the replay is the value, and every byte its lowest byte
//!     p changes..             replays the recording with changes of its bytes: `cut k`, `put k hex`, `insert k hex`
//!     e k section changes..   replays it with changes of a section of record k, from 1: call, first, second, answer, shown
//!     N words bytes           replays it, lent the first so many words and bytes
//!     c                       replays every shorter front: how many are refused by 13, and whether the table is kept
//!     f                       replays it with each section of each record a byte longer, and a byte shorter: the answers; of those that
//!                             are 0 the record that differs
//!     g                       replays it with another number in the answer of each record, another last result, a byte of those shown
//!                             changed, one more and one less: the records that differ
//!     P                       prints the live entries
//!
//! A replay prints its number, whether it agrees or which record differs, the tally, and what is live and held afterwards; or "kept"
//! where it left every word and byte.

use super::table::{call, print_entries, Stops};
use super::{all_seen, each_line, Answers, Arguments, Seen};
use crate::call::Call;
use crate::calls::LENGTH;
use crate::decode;
use crate::model_side::Model;
use crate::recordings::{bytes, read, Record, Replays};
use crate::subject::{Library, Plain};
use model::recording::{held, Outcome};
use std::fmt::Write;

/// The answers of a replay, as document 02 lists them.
const ANSWERS: Answers = &[(b'p', &[0, 1, 13, 14, 10])];

const SECTIONS: [&str; 5] = ["call", "first", "second", "answer", "shown"];

pub trait Side: Stops + Replays {}

impl Side for Model {}
impl Side for Library {}

/// Without the last byte, if there is one.
fn shorten(section: &mut Vec<u8>) {
    section.truncate(section.len().saturating_sub(1));
}

type Memory = (Vec<u64>, Vec<u8>);

struct Lines {
    /// The table whose calls are recorded, and the one that is lent to the replay.
    recorded: Memory,
    lent: Memory,
    records: Vec<Record>,
    last: Call,
    saved: Vec<u8>,
    seen: Seen,
}

impl Lines {
    fn replay<S: Side>(&mut self, recording: &[u8], n: usize, m: usize) -> Result<Outcome, u32> {
        let before = self.lent.clone();
        let (words, store) = &mut self.lent;
        let outcome = S::replay(&mut words[..n], &mut store[..m], recording);
        assert!(outcome.is_ok() || self.lent == before, "kept");
        let (mut words, mut store) = before;
        let plain = Plain::replay(&mut words[..n], &mut store[..m], recording);
        assert_eq!(plain, outcome, "plain Rust");
        if (n, m) == (LENGTH, LENGTH) {
            assert_eq!(read(recording), outcome.map(drop), "the reader");
        }
        self.seen.insert((b'p', outcome.err().unwrap_or(0)));
        outcome
    }

    fn whole<S: Side>(&mut self, recording: &[u8]) -> Result<Outcome, u32> {
        self.replay::<S>(recording, LENGTH, LENGTH)
    }

    fn printed<S: Side>(&mut self, recording: &[u8], n: usize, m: usize) -> String {
        match self.replay::<S>(recording, n, m) {
            Err(number) => format!("{number} kept\n"),
            Ok(Outcome { differs, tally }) => {
                let found = match differs {
                    0 => "agrees".to_string(),
                    k => format!("differs at {k}"),
                };
                let e = decode::entries(&self.lent.0[..LENGTH], &self.lent.1[..LENGTH]);
                let c = e.census();
                format!(
                    "0 {found}, granted {} taken {} rundown {} held {}; clock {} exporters {} objects {} interfaces {} sets {}\n",
                    tally.granted, tally.taken, tally.rundown, held(&e), e.clock, c.exporters, c.objects, c.interfaces, c.sets
                )
            }
        }
    }

    /// Performs and records a call.
    fn record<S: Side>(&mut self, call: Call) -> String {
        let reply = S::perform(&mut self.recorded.0, &mut self.recorded.1, &call);
        if let (Call::WriteSnapshot { .. }, 0) = (&call, reply.number) {
            self.saved = reply.bytes[..reply.values[0] as usize].to_vec();
        }
        let record = Record::of(&call, &reply);
        let shown = record.shown.len();
        self.records.push(record);
        self.last = call;
        let results: String = reply.values.iter().map(|v| format!(" {v}")).collect();
        let n = self.records.len();
        format!("{n}: {}{results}, {shown} shown\n", reply.number)
    }

    /// The recording with one record changed.
    fn with(&self, k: usize, change: impl FnOnce(&mut Record)) -> Vec<u8> {
        let mut records = self.records.clone();
        change(&mut records[k]);
        bytes(&records)
    }

    fn lengths<S: Side>(&mut self) -> String {
        let mut out = String::new();
        for k in 0..self.records.len() {
            write!(out, "{}:", k + 1).unwrap();
            for (i, name) in SECTIONS.iter().enumerate() {
                let longer = self.with(k, |r| r.sections()[i].push(0));
                let shorter = self.with(k, |r| shorten(r.sections()[i]));
                let mut answer = |bytes: &[u8]| match self.whole::<S>(bytes) {
                    Err(number) => number.to_string(),
                    Ok(outcome) => format!("0/{}", outcome.differs),
                };
                write!(out, " {name} {} {}", answer(&longer), answer(&shorter)).unwrap();
            }
            out.push('\n');
        }
        out
    }

    fn other_answers<S: Side>(&mut self) -> String {
        let mut out = String::new();
        for k in 0..self.records.len() {
            let changed = [
                self.with(k, |r| r.answer[0] ^= 1),
                self.with(k, |r| {
                    let last = r.answer.len() - 4;
                    r.answer[last] ^= 1; // 2^32
                }),
                self.with(k, |r| {
                    r.shown.iter_mut().rev().take(1).for_each(|b| *b ^= 0x80)
                }),
                self.with(k, |r| r.shown.push(0)),
                self.with(k, |r| shorten(&mut r.shown)),
            ];
            let differs = changed.map(|bytes| {
                let outcome = self.whole::<S>(&bytes).expect("another answer");
                format!(" {}", outcome.differs)
            });
            writeln!(out, "{}:{}", k + 1, differs.concat()).unwrap();
        }
        out
    }

    fn line<S: Side>(&mut self, letter: u8, mut a: Arguments) -> String {
        match letter {
            b'*' => {
                self.records.clear();
                S::perform(
                    &mut self.recorded.0,
                    &mut self.recorded.1,
                    &Call::Reset { time: 0 },
                );
                String::new()
            }
            b'n' => {
                let call = self.last.clone();
                (0..a.number()).for_each(|_| drop(self.record::<S>(call.clone())));
                format!("{} records\n", self.records.len())
            }
            b'F' => {
                let value = a.number();
                self.lent.0.fill(value);
                self.lent.1.fill(value as u8);
                String::new()
            }
            b'p' => self.printed::<S>(&a.changed(bytes(&self.records)), LENGTH, LENGTH),
            b'e' => {
                let (k, name) = (a.number() as usize - 1, a.name());
                let i = SECTIONS.iter().position(|s| s.as_bytes() == name);
                let i = i.expect("a section's name");
                let changed = self.with(k, |r| {
                    let section = r.sections()[i].clone();
                    *r.sections()[i] = a.changed(section);
                });
                self.printed::<S>(&changed, LENGTH, LENGTH)
            }
            b'N' => {
                let (n, m) = (a.number() as usize, a.number() as usize);
                self.printed::<S>(&bytes(&self.records), n, m)
            }
            b'c' => {
                let whole = bytes(&self.records);
                let cut = |n: &usize| self.whole::<S>(&whole[..*n]) == Err(13);
                let short = (0..whole.len()).filter(cut).count();
                format!("{short} of {} short\n", whole.len())
            }
            b'f' => self.lengths::<S>(),
            b'g' => self.other_answers::<S>(),
            b'P' => print_entries(&self.lent.0[..LENGTH], &self.lent.1[..LENGTH]),
            b'i' => {
                let load = Call::LoadSnapshot {
                    snapshot: a.changed(self.saved.clone()),
                };
                self.record::<S>(load)
            }
            letter => self.record::<S>(call(letter, a)),
        }
    }
}

pub fn run<S: Side>(input: &[u8]) -> String {
    let memory = |n| (vec![0u64; n], vec![0u8; n]);
    let mut lines = Lines {
        recorded: memory(LENGTH),
        lent: memory(LENGTH + 1), // one place more than a table has
        records: Vec::new(),
        last: Call::Census {},
        saved: Vec::new(),
        seen: Seen::new(),
    };
    let out = each_line(input, |letter, a| lines.line::<S>(letter, a));
    all_seen(ANSWERS, &lines.seen);
    out
}
