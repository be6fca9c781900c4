//! Recorded runs and their replay (request 11): runs of the model, written down here in the form of docs/RECORDING.md, are replayed
//! by the library, by plain Rust and by the model's own reader, as they are and changed; and the Rust crate's recorder writes the same
//! bytes, and its reader refuses the same ones.

use crate::call::{Call, Reply};
use crate::calls::{Memory, LENGTH};
use crate::decode;
use crate::generate::Pools;
use crate::model_side::{Model, Side};
use crate::random::Random;
use crate::subject::{Library, Plain, Recorded, Subject};
use crate::tally::Tally;
use crate::Differs;
use model::entries::Entries;
use model::recording::{self, Outcome};
use rimonakh::recording::{Recording, Records};
use rimonakh::{Error, Table};

/// A record by its sections.
#[derive(Clone)]
pub struct Record {
    pub call: Vec<u8>,
    pub first: Vec<u8>,
    pub second: Vec<u8>,
    pub answer: Vec<u8>,
    pub shown: Vec<u8>,
}

fn words(numbers: &[u64]) -> Vec<u8> {
    numbers.iter().flat_map(|n| n.to_le_bytes()).collect()
}

impl Record {
    /// The record of a call and what it answered.
    pub fn of(call: &Call, reply: &Reply) -> Record {
        let mut answer = vec![u64::from(reply.number)];
        if !matches!(call, Call::NextStop { .. }) {
            answer.extend(&reply.values); // of a next stop they say which slice the part is of
        }
        let shown = match call {
            _ if reply.number != 0 => 0,
            Call::AddList { items, .. } | Call::ReleaseList { items, .. } => items.len() / 24,
            Call::Resolve { .. } | Call::ResolveFiltered { .. } | Call::WriteSnapshot { .. } => {
                reply.values[0] as usize
            }
            _ => reply.bytes.len(),
        };
        let told = call.told();
        let mut lists = told.lists.into_iter();
        Record {
            call: told.call,
            first: lists.next().unwrap_or_default(),
            second: lists.next().unwrap_or_default(),
            answer: words(&answer),
            shown: reply.bytes[..shown].to_vec(),
        }
    }

    pub fn sections(&mut self) -> [&mut Vec<u8>; 5] {
        [
            &mut self.call,
            &mut self.first,
            &mut self.second,
            &mut self.answer,
            &mut self.shown,
        ]
    }
}

/// The bytes of records.
pub fn bytes(records: &[Record]) -> Vec<u8> {
    let mut bytes = words(&[records.len() as u64]);
    for r in records {
        for section in [&r.call, &r.first, &r.second, &r.answer, &r.shown] {
            bytes.extend((section.len() as u64).to_le_bytes());
            bytes.extend(section);
        }
    }
    bytes
}

/// Lengths of which one is not a table's.
const OTHER_LENGTHS: [(usize, usize); 4] = [
    (LENGTH - 1, LENGTH),
    (LENGTH + 1, LENGTH),
    (LENGTH, LENGTH - 1),
    (LENGTH, LENGTH + 1),
];

/// What replays a recording over an array and a store.
pub trait Replays {
    fn replay(words: &mut [u64], store: &mut [u8], recording: &[u8]) -> Result<Outcome, u32>;
}

fn outcome(differs: u32, [granted, taken, rundown]: [u64; 3]) -> Outcome {
    let tally = recording::Tally {
        granted,
        taken,
        rundown,
    };
    Outcome { differs, tally }
}

impl Replays for Library {
    fn replay(words: &mut [u64], store: &mut [u8], recording: &[u8]) -> Result<Outcome, u32> {
        let r = Table::over(&mut *words, &mut *store).replay(recording);
        let r = r.map_err(Error::number)?;
        let t = r.tally;
        Ok(outcome(
            r.differs.unwrap_or(0),
            [t.granted, t.taken, t.rundown],
        ))
    }
}

impl Replays for Plain {
    fn replay(words: &mut [u64], store: &mut [u8], recording: &[u8]) -> Result<Outcome, u32> {
        let r = plain::recording::replay(words, store, recording)?;
        let t = r.tally;
        Ok(outcome(r.differs, [t.granted, t.taken, t.rundown]))
    }
}

impl Replays for Model {
    fn replay(words: &mut [u64], store: &mut [u8], recording: &[u8]) -> Result<Outcome, u32> {
        if (words.len(), store.len()) != (LENGTH, LENGTH) {
            return Err(1);
        }
        let mut entries = Entries::empty(0);
        let outcome = recording::replay(&mut entries, recording)?;
        decode::encode(&entries, words, store);
        Ok(outcome)
    }
}

/// Whether the Rust crate reads a recording, and every record comes out again as it went in.
pub fn read(recording: &[u8]) -> Result<(), u32> {
    let records = Records::read(recording).map_err(|fault| fault.error.number())?;
    let again: Recording = records.collect();
    assert!(again.bytes() == recording, "read and written again");
    Ok(())
}

/// What the model demands of a replay: its outcome, and the entries that it leaves.
type Demanded = (Result<Outcome, u32>, Entries);

/// Whether a side, over memory that holds anything, answers and leaves what is demanded, and keeps the memory where it refuses.
fn held_to<S: Subject + Replays>(
    (outcome, entries): &Demanded,
    memory: &mut Memory,
    bytes: &[u8],
) -> Result<(), String> {
    let before = memory.clone();
    let (words, store) = memory.lent();
    let answered = S::replay(words, store, bytes);
    let side = S::NAME;
    if answered != *outcome {
        return Err(format!(
            "{side} answered {answered:?}, demanded {outcome:?}"
        ));
    }
    if answered.is_err() && *memory != before {
        return Err(format!(
            "{side} refused by {answered:?} and changed the memory"
        ));
    }
    let (words, store) = memory.lent();
    if answered.is_ok() && !decode::same(&decode::entries(words, store), entries) {
        return Err(format!("{side} left other entries than {entries:?}"));
    }
    Ok(())
}

/// The outcome of bytes that were replayed by all sides.
fn replayed(memory: &mut Memory, bytes: &[u8]) -> Result<Result<Outcome, u32>, String> {
    let mut entries = Entries::empty(0);
    let demanded = (recording::replay(&mut entries, bytes), entries);
    held_to::<Plain>(&demanded, &mut memory.clone(), bytes)?;
    held_to::<Library>(&demanded, memory, bytes)?;
    let (found, whole) = (
        rimonakh::recording::whole(bytes),
        recording::whole_records(bytes),
    );
    if (found.count, found.end) != whole {
        return Err(format!("found {found:?}, demanded {whole:?}"));
    }
    let read = read(bytes);
    match demanded.0.map(drop) == read {
        true => Ok(demanded.0),
        false => Err(format!("read as {read:?}, demanded {:?}", demanded.0)),
    }
}

/// A run of the model, recorded; and the recording that the recorder of the Rust crate makes of the same calls.
fn recorded(random: &mut Random, length: usize) -> (Vec<Record>, Vec<u8>) {
    let pools = Pools::new(random, false);
    let mut side = Side {
        entries: Entries::empty(0),
        sound: true,
    };
    let mut recorder = Recorded::new(1000);
    let mut records = Vec::new();
    let mut call = Call::Reset { time: 1000 };
    while records.len() < length {
        records.push(Record::of(&call, &side.perform(&call)));
        if records.len() > 1 {
            call.by(&mut recorder);
        }
        call = pools.plain_call(random, &side.entries);
    }
    (records, recorder.recording())
}

/// Another answer of a record: another number or result, or other shown bytes.
fn change_answer(random: &mut Random, r: &mut Record) {
    match random.below(4) {
        0 if !r.shown.is_empty() => {
            let at = random.below(r.shown.len());
            r.shown[at] ^= 1 << random.below(8);
        }
        1 if !r.shown.is_empty() => r.shown.truncate(r.shown.len() - 1),
        2 => r.shown.push(random.word() as u8),
        _ => {
            let at = random.below(r.answer.len());
            r.answer[at] ^= 1 << random.below(8);
        }
    }
}

/// Bytes of a recording changed: a section longer or shorter, a byte, a number of bytes, a cut, bytes more.
fn change_bytes(random: &mut Random, records: &mut [Record]) -> Vec<u8> {
    let k = random.below(records.len());
    if random.once_in(2) {
        let section = &mut records[k].sections()[random.below(5)];
        match random.below(4) {
            0 => section.truncate(section.len().saturating_sub(1)),
            1 => section.push(random.word() as u8),
            2 => section.clear(),
            _ if section.is_empty() => {}
            _ => section[0] = random.below(24) as u8,
        }
        return bytes(records);
    }
    let mut made = bytes(records);
    let at = match random.below(3) {
        0 => random.below(made.len()),
        1 => random.below(8),
        _ => bytes(&records[..k]).len(), // the number of a section's bytes
    };
    match random.below(5) {
        0 => made.truncate(at),
        1 => made.extend(random.bytes(1 + at % 9)),
        2 => drop(made.splice(at..at + 1, [])),
        3 => made.insert(at, random.word() as u8),
        _ => made[at] = random.pick(&[0, 1, 0xFF, made[at].wrapping_add(1), made[at] ^ 0x80]),
    }
    made
}

struct Runs {
    memory: Memory,
    tally: Tally,
}

impl Runs {
    fn replay(&mut self, bytes: &[u8]) -> Result<Result<Outcome, u32>, String> {
        let outcome = replayed(&mut self.memory, bytes)?;
        self.tally.count(outcome.err().unwrap_or(0));
        Ok(outcome)
    }

    fn run(&mut self, random: &mut Random) -> Result<(), String> {
        let length = random.pick(&[1, 10, 100, 400]);
        let (records, written) = recorded(random, length);
        let whole = bytes(&records);
        if written != whole {
            return Err("the recorder writes another recording".to_string());
        }
        let Ok(outcome) = self.replay(&whole)? else {
            return Err("a recorded run is refused".to_string());
        };
        if outcome.differs != 0 {
            return Err(format!("a recorded run differs: {outcome:?}"));
        }
        self.tally.event("recordings agree");
        if outcome.tally.taken != 0 && outcome.tally.rundown != 0 {
            self.tally.event("recordings that took and ran down");
        }
        for _ in 0..4 {
            let mut changed = records.clone();
            let k = random.below(length);
            change_answer(random, &mut changed[k]);
            let outcome = self.replay(&bytes(&changed))?;
            if outcome.map(|o| o.differs) != Ok(k as u32 + 1) {
                return Err(format!("record {k} was changed, and {outcome:?}"));
            }
            self.tally.event("recordings differ where changed");
        }
        for _ in 0..12 {
            let made = change_bytes(random, &mut records.clone());
            let outcome = self.replay(&made)?;
            if outcome.is_ok_and(|o| o.differs != 0) {
                self.tally.event("recordings differ by a changed byte");
            }
        }
        self.torn(random, &records)?;
        self.lengths(&whole)
    }

    /// A recording whose last write was torn, with any number before its records, is replayed up to the last whole one.
    fn torn(&mut self, random: &mut Random, records: &[Record]) -> Result<(), String> {
        let written = random.below(records.len() + 1);
        let mut made = bytes(&records[..written]);
        let end = made.len();
        if let Some(next) = records.get(written) {
            let next = &bytes(std::slice::from_ref(next))[8..];
            made.extend(&next[..random.below(next.len())]);
        }
        if random.once_in(2) {
            made.truncate(end);
            made.resize(end + random.below(200), 0); // a length that was written, without its bytes
        }
        made[..8].copy_from_slice(&random.word().to_le_bytes());
        let found = rimonakh::recording::whole(&made);
        if (found.count, found.end) != (written as u64, end) {
            return Err(format!("{written} records up to {end}, found {found:?}"));
        }
        made[..8].copy_from_slice(&found.count.to_le_bytes());
        let outcome = self.replay(&made[..found.end])?;
        if outcome.map(|o| o.differs) != Ok(0) {
            return Err(format!("torn behind {written} records: {outcome:?}"));
        }
        self.tally.event("torn recordings recovered");
        Ok(())
    }

    /// A table of another length is refused by 1, whatever the recording is.
    fn lengths(&mut self, recording: &[u8]) -> Result<(), String> {
        let before = self.memory.clone();
        for (n, m) in OTHER_LENGTHS {
            let (words, store) = self.memory.all();
            let (words, store) = (&mut words[..n], &mut store[..m]);
            let numbers = [
                Library::replay(words, store, recording),
                Plain::replay(words, store, recording),
            ];
            if numbers != [Err(1); 2] || self.memory != before {
                return Err(format!("lent {n} words and {m} bytes: {numbers:?}"));
            }
        }
        self.tally.count(1);
        Ok(())
    }
}

/// Random runs, recorded and replayed, until so many replays are compared.
pub fn compare(seed: u64, replays: u64) -> Result<Tally, Differs> {
    let mut random = Random::new(seed);
    let mut runs = Runs {
        memory: Memory::any(&mut random),
        tally: Tally::default(),
    };
    while runs.tally.total() < replays {
        let run = random.word();
        runs.run(&mut Random::new(run)).map_err(|difference| {
            println!("FAILED: replay, in the run of seed {run}: {difference}");
            Differs
        })?;
    }
    Ok(runs.tally)
}
