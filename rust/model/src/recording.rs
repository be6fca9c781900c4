//! A recorded shift (document 02, request 11), in the form of docs/RECORDING.md, and its replay.

use crate::entries::{Counts, Entries, Stop, Way};
use crate::Guid;

const MOST_RECORDS: u64 = 16_384;

/// No call writes more bytes than this, so that a longer buffer is as good as one of this length.
const ROOM: u64 = 65_536;

/// What was granted, taken and run down since the last accepted reset or load.
#[derive(Clone, Copy, Debug, Default, PartialEq, Eq)]
pub struct Tally {
    pub granted: u64,
    pub taken: u64,
    pub rundown: u64,
}

/// The number of the first record that differs, from 1, or 0; and the tally.
#[derive(Clone, Copy, Debug, Default, PartialEq, Eq)]
pub struct Outcome {
    pub differs: u32,
    pub tally: Tally,
}

/// What a record tells of an answer: the number and the results; the bytes that were shown or written.
#[derive(Clone, Debug, PartialEq, Eq)]
pub struct Answer {
    pub number: u64,
    pub results: Vec<u64>,
    pub shown: Vec<u8>,
}

/// The sections of a record.
#[derive(Clone, Copy, Debug, PartialEq, Eq)]
pub struct Record<'a> {
    pub call: &'a [u8],
    pub first: &'a [u8],
    pub second: &'a [u8],
    pub answer: &'a [u8],
    pub shown: &'a [u8],
}

/// Of a code: the bytes of its numbers, of an element of its first and of its second list (0: it has none), and how many results it
/// has.
struct Form {
    numbers: usize,
    first: usize,
    second: usize,
    results: usize,
}

const fn form(numbers: usize, first: usize, second: usize, results: usize) -> Form {
    Form {
        numbers,
        first,
        second,
        results,
    }
}

const FORMS: [Form; 20] = [
    form(8, 0, 0, 0),                       // reset
    form(8 + 16, 1, 0, 0),                  // enter exporter
    form(8, 0, 0, 0),                       // remove exporter
    form(8 + 8 + 16 + 16 + 4 + 1, 0, 0, 0), // enter object
    form(8 + 16 + 16 + 4, 0, 0, 0),         // enter interface
    form(4 + 16 + 4 + 4, 0, 0, 0),          // add
    form(4 + 16 + 4 + 4, 0, 0, 4),          // release
    form(4, 0, 0, 0),                       // drop client
    form(4 + 8, 1, 0, 0),                   // add list
    form(4 + 8, 1, 0, 0),                   // release list
    form(8, 0, 0, 0),                       // simple ping
    form(8 + 2, 8, 8, 2),                   // complex ping
    form(8, 0, 0, 4),                       // clock
    form(8 + 8, 0, 0, 3),                   // resolve
    form(8 + 8, 2, 0, 3),                   // resolve by protocols
    form(0, 0, 0, 4),                       // census
    form(8, 0, 0, 1),                       // members
    form(0, 1, 0, 0),                       // next stop
    form(8, 0, 0, 1),                       // write snapshot
    form(0, 1, 0, 0),                       // load snapshot
];

/// The bytes after their number, which is of eight bytes, and what stands behind them.
fn section(bytes: &[u8]) -> Option<(&[u8], &[u8])> {
    let (n, rest) = bytes.split_first_chunk()?;
    rest.split_at_checked(usize::try_from(u64::from_le_bytes(*n)).ok()?)
}

fn record(bytes: &[u8]) -> Option<(Record<'_>, &[u8])> {
    let (call, bytes) = section(bytes)?;
    let (first, bytes) = section(bytes)?;
    let (second, bytes) = section(bytes)?;
    let (answer, bytes) = section(bytes)?;
    let (shown, bytes) = section(bytes)?;
    let record = Record {
        call,
        first,
        second,
        answer,
        shown,
    };
    Some((record, bytes))
}

fn whole(list: &[u8], element: usize) -> bool {
    match element {
        0 => list.is_empty(),
        n => list.len().is_multiple_of(n),
    }
}

impl Record<'_> {
    fn well_formed(&self) -> bool {
        let Some((code, numbers)) = self.call.split_first() else {
            return false;
        };
        let Some(form) = FORMS.get(*code as usize) else {
            return false;
        };
        numbers.len() == form.numbers
            && whole(self.first, form.first)
            && whole(self.second, form.second)
            && self.answer.len() == 8 + 8 * form.results
            && (*code != 3 || numbers[form.numbers - 1] <= 1)
    }

    /// The answer that is recorded.
    pub fn recorded(&self) -> Answer {
        let mut numbers = words(self.answer);
        Answer {
            number: numbers.remove(0),
            results: numbers,
            shown: self.shown.to_vec(),
        }
    }
}

/// The records; 13, 14 or 10.
pub fn records(bytes: &[u8]) -> Result<Vec<Record<'_>>, u32> {
    let (n, mut rest) = bytes.split_first_chunk().ok_or(13u32)?;
    let n = u64::from_le_bytes(*n);
    let mut found = Vec::new();
    for _ in 0..n {
        let (one, behind) = record(rest).ok_or(13u32)?;
        found.push(one);
        rest = behind;
    }
    if !rest.is_empty() || !found.iter().all(Record::well_formed) {
        return Err(14);
    }
    if n > MOST_RECORDS {
        return Err(10);
    }
    Ok(found)
}

/// The records behind the first eight bytes that are whole and well formed: how many, and where they end.
pub fn whole_records(bytes: &[u8]) -> (u64, usize) {
    let Some((_, mut rest)) = bytes.split_first_chunk::<8>() else {
        return (0, 0);
    };
    let mut count = 0;
    while count < MOST_RECORDS {
        match record(rest) {
            Some((one, behind)) if one.well_formed() => rest = behind,
            _ => break,
        }
        count += 1;
    }
    (count, bytes.len() - rest.len())
}

/// The numbers of eight bytes each.
fn words(bytes: &[u8]) -> Vec<u64> {
    let number = |b: &[u8]| u64::from_le_bytes(b.try_into().unwrap());
    bytes.chunks_exact(8).map(number).collect()
}

/// The numbers of a call, from the left.
struct Numbers<'a>(&'a [u8]);

impl Numbers<'_> {
    /// The numbers behind so many bytes.
    fn past(&self, bytes: usize) -> Self {
        Numbers(&self.0[bytes..])
    }

    fn take<const N: usize>(&mut self) -> [u8; N] {
        let (front, rest) = self.0.split_first_chunk().expect("a record is well formed");
        self.0 = rest;
        *front
    }

    fn u32(&mut self) -> u32 {
        u32::from_le_bytes(self.take())
    }

    fn u64(&mut self) -> u64 {
        u64::from_le_bytes(self.take())
    }

    fn guid(&mut self) -> Guid {
        self.take()
    }

    /// A buffer of the length that is told.
    fn buffer(&mut self) -> Vec<u8> {
        vec![0; self.u64().min(ROOM) as usize]
    }
}

/// Results and shown bytes.
type Told = (Vec<u64>, Vec<u8>);

fn nothing(_: ()) -> Told {
    (vec![], vec![])
}

fn counts(c: Counts) -> Told {
    let each = [c.exporters, c.objects, c.interfaces, c.sets];
    (each.map(|n| n as u64).to_vec(), vec![])
}

/// The list that was written, with its length and the IPID's halves as numbers.
fn resolved((length, unknown): (usize, Guid), mut buffer: Vec<u8>) -> Told {
    buffer.truncate(length);
    let mut results = vec![length as u64];
    results.extend(words(&unknown));
    (results, buffer)
}

fn list(e: &mut Entries, way: Way, n: &mut Numbers, items: &[u8]) -> Result<Told, u32> {
    let (client, mut results) = (n.u32(), n.buffer());
    e.count_list(way, client, items, &mut results)?;
    results.truncate(items.len() / 24);
    Ok((vec![], results))
}

fn perform(e: &mut Entries, r: &Record) -> Result<Told, u32> {
    let n = &mut Numbers(&r.call[1..]);
    match r.call[0] {
        0 => {
            *e = Entries::empty(n.u64());
            Ok(nothing(()))
        }
        1 => e.enter_exporter(n.u64(), n.guid(), r.first).map(nothing),
        2 => e.remove_exporter(n.u64()).map(nothing),
        3 => {
            let (oid, oxid, ipid, iid) = (n.u64(), n.u64(), n.guid(), n.guid());
            let (public, no_ping) = (n.u32(), n.take() == [1]);
            e.enter_object(oid, oxid, ipid, iid, public, no_ping)
                .map(nothing)
        }
        4 => e
            .enter_interface(n.u64(), n.guid(), n.guid(), n.u32())
            .map(nothing),
        5 => e.add(n.u32(), n.guid(), n.u32(), n.u32()).map(nothing),
        6 => e.release(n.u32(), n.guid(), n.u32(), n.u32()).map(|took| {
            let went = [took.interface_went, took.object_went].map(u64::from);
            let results = [took.public.into(), took.private.into(), went[0], went[1]];
            (results.to_vec(), vec![])
        }),
        7 => e.drop_client(n.u32()).map(nothing),
        8 => list(e, Way::Add, n, r.first),
        9 => list(e, Way::Release, n, r.first),
        10 => e.simple_ping(n.u64()).map(nothing),
        11 => {
            let (set, sequence) = (n.u64(), u16::from_le_bytes(n.take()));
            e.complex_ping(set, sequence, &words(r.first), &words(r.second))
                .map(|set| (vec![set, 0], vec![]))
        }
        12 => e.set_clock(n.u64()).map(counts),
        13 => {
            let (oxid, mut buffer) = (n.u64(), n.buffer());
            let found = e.resolve(oxid, &mut buffer)?;
            Ok(resolved(found, buffer))
        }
        14 => {
            let (oxid, mut buffer) = (n.u64(), n.buffer());
            let protocol = |b: &[u8]| u16::from_le_bytes(b.try_into().unwrap());
            let protocols: Vec<u16> = r.first.chunks_exact(2).map(protocol).collect();
            let found = e.resolve_filtered(oxid, &protocols, &mut buffer)?;
            Ok(resolved(found, buffer))
        }
        15 => Ok(counts(e.census())),
        16 => e.members(n.u64()).map(|count| (vec![count as u64], vec![])),
        17 => e.next_stop(r.first).map(|stop| match stop {
            Stop::Exporter(list) | Stop::Own(list) => (vec![], list),
        }),
        18 => {
            let mut buffer = n.buffer();
            let length = e.write_snapshot(&mut buffer)?;
            buffer.truncate(length);
            Ok((vec![length as u64], buffer))
        }
        19 => e.load_snapshot(r.first).map(nothing),
        code => unreachable!("code {code} in a record that is well formed"),
    }
}

/// Our answer; a refused call has zeros for results and shows nothing.
fn answer(e: &mut Entries, r: &Record) -> Answer {
    match perform(e, r) {
        Ok((results, shown)) => Answer {
            number: 0,
            results,
            shown,
        },
        Err(number) => Answer {
            number: number.into(),
            results: vec![0; FORMS[r.call[0] as usize].results],
            shown: vec![],
        },
    }
}

/// The table's sum.
pub fn held(e: &Entries) -> u64 {
    let counts = |i: &crate::entries::Interface| -> u64 {
        let private: u64 = i.private.iter().map(|&n| u64::from(n)).sum();
        private + u64::from(i.public)
    };
    e.interfaces.iter().map(counts).sum()
}

/// What accepted items add, or take.
fn moved_by_items(before: &Entries, way: Way, client: u32, items: &[u8]) -> u64 {
    let mut e = before.clone();
    let mut sum = 0;
    for item in items.chunks_exact(24) {
        let mut n = Numbers(item);
        let (ipid, public, private) = (n.guid(), n.u32(), n.u32());
        sum += match way {
            Way::Add => match e.add(client, ipid, public, private) {
                Ok(()) => u64::from(public) + u64::from(private),
                Err(_) => 0,
            },
            Way::Release => match e.release(client, ipid, public, private) {
                Ok(took) => u64::from(took.public) + u64::from(took.private),
                Err(_) => 0,
            },
        };
    }
    sum
}

impl Tally {
    /// Counts the accepted call of a record, with its results.
    fn count(&mut self, r: &Record, results: &[u64], before: &Entries, after: &Entries) {
        let mut n = Numbers(&r.call[1..]);
        match r.call[0] {
            0 => *self = Tally::default(),
            // the public references stand behind the identifiers
            3 => self.granted += u64::from(n.past(8 + 8 + 16 + 16).u32()),
            4 => self.granted += u64::from(n.past(8 + 16 + 16).u32()),
            5 => {
                n = n.past(4 + 16);
                self.granted += u64::from(n.u32()) + u64::from(n.u32());
            }
            6 => self.taken += results[0] + results[1],
            8 => self.granted += moved_by_items(before, Way::Add, n.u32(), r.first),
            9 => self.taken += moved_by_items(before, Way::Release, n.u32(), r.first),
            2 | 7 | 12 => self.rundown += held(before) - held(after),
            19 => {
                *self = Tally {
                    granted: held(after),
                    ..Tally::default()
                }
            }
            _ => {}
        }
    }
}

/// Replays a recording from a reset at 0, up to the first record that differs.
pub fn replay(e: &mut Entries, bytes: &[u8]) -> Result<Outcome, u32> {
    let found = records(bytes)?;
    *e = Entries::empty(0);
    let mut tally = Tally::default();
    for (k, r) in found.iter().enumerate() {
        let before = e.clone();
        let ours = answer(e, r);
        if ours.number == 0 {
            tally.count(r, &ours.results, &before, e);
        }
        assert_eq!(
            tally.granted,
            held(e) + tally.taken + tally.rundown,
            "the tally of the model balances"
        );
        if ours != r.recorded() {
            let differs = k as u32 + 1;
            return Ok(Outcome { differs, tally });
        }
    }
    Ok(Outcome { differs: 0, tally })
}

#[cfg(test)]
mod tests {
    use super::*;

    /// The sample of docs/RECORDING.md.
    fn sample() -> Vec<u8> {
        let mut bytes = vec![2, 0, 0, 0, 0, 0, 0, 0];
        bytes.extend([9, 0, 0, 0, 0, 0, 0, 0]);
        bytes.extend([0x0c, 0x68, 0x01, 0, 0, 0, 0, 0, 0]);
        bytes.extend([0; 16]);
        bytes.extend([0x28, 0, 0, 0, 0, 0, 0, 0]);
        bytes.extend([0; 40]);
        bytes.extend([0; 8]);
        bytes.extend([5, 0, 0, 0, 0, 0, 0, 0, 7, 9, 0, 0, 0]);
        bytes.extend([0; 16]);
        bytes.extend([8, 0, 0, 0, 0, 0, 0, 0, 0x14, 0, 0, 0, 0, 0, 0, 0]);
        bytes.extend([0; 8]);
        bytes
    }

    #[test]
    fn the_sample_agrees() {
        let mut e = Entries::empty(7);
        assert_eq!(sample().len(), 150);
        assert_eq!(replay(&mut e, &sample()), Ok(Outcome::default()));
        assert_eq!(e, Entries::empty(360));
    }

    #[test]
    fn every_cut_is_short_and_a_byte_more_is_broken() {
        let mut bytes = sample();
        for n in 0..bytes.len() {
            assert_eq!(records(&bytes[..n]), Err(13), "{n}");
        }
        bytes.push(0);
        assert_eq!(records(&bytes), Err(14));
    }
}
