//! The snapshot of a table: its live entries as bytes, each kind rising by identifier.

use crate::bytes::judge_list;
use crate::judge::judged;
use crate::table::{
    list_of, members, put_members, BYTES, CLOCK, COUNT_COLUMNS, EXPORTER, EXPORTERS, HEARD, ID,
    IID_HIGH, IID_LOW, INTERFACES, IPID_HIGH, IPID_LOW, NEXT_SET, NO_PING, OBJECT, OBJECTS, PINGED,
    PUBLIC, SEQUENCE, SETS, UNKNOWN_HIGH, UNKNOWN_LOW, WORDS,
};

/// The length of the longest snapshot.
pub const LONGEST: usize = 64_698;

/// Bytes written one after the other; room was tested.
struct Out<'a> {
    buffer: &'a mut [u8],
    at: usize,
}

impl Out<'_> {
    fn put(&mut self, bytes: &[u8]) {
        self.buffer[self.at..self.at + bytes.len()].copy_from_slice(bytes);
        self.at += bytes.len();
    }

    fn number(&mut self, n: u64) {
        self.put(&n.to_le_bytes());
    }

    fn count(&mut self, n: usize) {
        self.put(&(n as u16).to_le_bytes());
    }
}

fn length(words: &[u64], store: &[u8]) -> usize {
    let lists: usize = (0..EXPORTERS.live(words))
        .map(|x| 26 + list_of(store, x).len())
        .sum();
    let sets: usize = (0..SETS.live(words))
        .map(|s| 20 + 8 * members(words, s).count_ones() as usize)
        .sum();
    26 + lists + 25 * OBJECTS.live(words) + 76 * INTERFACES.live(words) + sets
}

/// The rows of a kind, rising by a key, which is sorted with its row.
fn rising<K: Ord + Copy>(n: usize, key: impl Fn(usize) -> K) -> impl Iterator<Item = usize> {
    let mut rows: Vec<(K, u16)> = (0..n).map(|row| (key(row), row as u16)).collect();
    rows.sort_unstable();
    rows.into_iter().map(|(_, row)| row as usize)
}

pub fn write(words: &[u64], store: &[u8], buffer: &mut [u8]) -> Result<usize, u32> {
    judged(words, store)?;
    written(words, store, buffer)
}

/// The snapshot of a sound table.
pub(crate) fn written(words: &[u64], store: &[u8], buffer: &mut [u8]) -> Result<usize, u32> {
    let length = length(words, store);
    if buffer.len() < length {
        return Err(15);
    }
    let mut out = Out { buffer, at: 0 };
    out.count(2);
    out.number(words[CLOCK]);
    out.number(words[NEXT_SET]);
    out.count(EXPORTERS.live(words));
    for x in rising(EXPORTERS.live(words), |x| words[EXPORTERS.at(ID, x)]) {
        for column in [ID, UNKNOWN_LOW, UNKNOWN_HIGH] {
            out.number(words[EXPORTERS.at(column, x)]);
        }
        let list = list_of(store, x);
        out.count(list.len());
        out.put(list);
    }
    let objects: Vec<usize> = rising(OBJECTS.live(words), |o| words[OBJECTS.at(ID, o)]).collect();
    out.count(objects.len());
    for &o in &objects {
        out.number(words[OBJECTS.at(ID, o)]);
        out.number(words[OBJECTS.at(EXPORTER, o)]);
        out.put(&[(words[OBJECTS.at(NO_PING, o)] != 0) as u8]);
        out.number(words[OBJECTS.at(HEARD, o)]);
    }
    out.count(INTERFACES.live(words));
    let halves = |i| {
        let half = |column| words[INTERFACES.at(column, i)].swap_bytes();
        (half(IPID_LOW), half(IPID_HIGH))
    };
    for i in rising(INTERFACES.live(words), halves) {
        for column in [IPID_LOW, IPID_HIGH, IID_LOW, IID_HIGH, OBJECT] {
            out.number(words[INTERFACES.at(column, i)]);
        }
        for column in COUNT_COLUMNS {
            out.put(&(words[INTERFACES.at(column, i)] as u32).to_le_bytes());
        }
    }
    out.count(SETS.live(words));
    for s in rising(SETS.live(words), |s| words[SETS.at(ID, s)]) {
        out.number(words[SETS.at(ID, s)]);
        out.put(&(words[SETS.at(SEQUENCE, s)] as u16).to_le_bytes());
        out.number(words[SETS.at(PINGED, s)]);
        let bits = members(words, s);
        out.count(bits.count_ones() as usize);
        for &o in objects.iter().filter(|&&o| bits >> o & 1 != 0) {
            out.number(words[OBJECTS.at(ID, o)]);
        }
    }
    Ok(length)
}

/// The bytes that are not read yet.
struct Rest<'a>(&'a [u8]);

impl<'a> Rest<'a> {
    fn take(&mut self, n: usize) -> Option<&'a [u8]> {
        let (front, rest) = self.0.split_at_checked(n)?;
        self.0 = rest;
        Some(front)
    }

    fn number(&mut self) -> Option<u64> {
        Some(u64::from_le_bytes(self.take(8)?.try_into().unwrap()))
    }

    fn count(&mut self) -> Option<u16> {
        Some(u16::from_le_bytes(self.take(2)?.try_into().unwrap()))
    }

    fn numbers<const N: usize>(&mut self) -> Option<[u64; N]> {
        let mut found = [0; N];
        for n in &mut found {
            *n = self.number()?;
        }
        Some(found)
    }

    fn exporters(&mut self, words: &mut [u64], store: &mut [u8]) -> Option<()> {
        let (mut last, mut at) = (0, 0);
        for x in 0..self.count()? as usize {
            let row: [u64; 3] = self.numbers()?;
            let n = self.count()? as usize;
            let list = self.take(n)?;
            if x == EXPORTERS.places || row[ID] <= last || at + n > BYTES {
                return None;
            }
            judge_list(list).ok()?;
            store[at..at + n].copy_from_slice(list);
            (last, at) = (row[ID], at + n);
            EXPORTERS.push(words, &row);
        }
        Some(())
    }

    fn objects(&mut self, words: &mut [u64]) -> Option<()> {
        let mut last = 0;
        for o in 0..self.count()? {
            let [oid, exporter] = self.numbers()?;
            let mark = self.take(1)?[0];
            let heard = self.number()?;
            if o as usize == OBJECTS.places || oid <= last || mark > 1 {
                return None;
            }
            last = oid;
            OBJECTS.push(words, &[oid, exporter, mark as u64, heard]);
        }
        Some(())
    }

    fn interfaces(&mut self, words: &mut [u64]) -> Option<()> {
        let mut last = (0, 0);
        for i in 0..self.count()? {
            let mut row = [0; INTERFACES.width];
            for half in &mut row[..PUBLIC] {
                *half = self.number()?;
            }
            for count in &mut row[PUBLIC..] {
                *count = u32::from_le_bytes(self.take(4)?.try_into().unwrap()) as u64;
            }
            let ipid = (row[IPID_LOW].swap_bytes(), row[IPID_HIGH].swap_bytes());
            if i as usize == INTERFACES.places || ipid <= last {
                return None;
            }
            last = ipid;
            INTERFACES.push(words, &row);
        }
        Some(())
    }

    fn sets(&mut self, words: &mut [u64]) -> Option<()> {
        let mut last = 0;
        for s in 0..self.count()? as usize {
            let number = self.number()?;
            let sequence = self.count()?;
            let pinged = self.number()?;
            if s == SETS.places || number <= last {
                return None;
            }
            last = number;
            SETS.push(words, &[number, sequence as u64, pinged, 0, 0]);
            let (mut bits, mut from) = (0u128, 0);
            for _ in 0..self.count()? {
                let oid = self.number()?;
                let oids = &OBJECTS.column(words, ID)[from..];
                let row = from + oids.iter().position(|&x| x == oid)?;
                bits |= 1 << row;
                from = row + 1;
            }
            put_members(words, s, bits);
        }
        Some(())
    }

    fn table(&mut self, words: &mut [u64], store: &mut [u8]) -> Option<()> {
        if self.count()? != 2 {
            return None;
        }
        [words[CLOCK], words[NEXT_SET]] = self.numbers()?;
        self.exporters(words, store)?;
        self.objects(words)?;
        self.interfaces(words)?;
        self.sets(words)?;
        self.0.is_empty().then_some(())
    }
}

pub fn load(words: &mut [u64], store: &mut [u8], snapshot: &[u8]) -> Result<(), u32> {
    if words.len() != WORDS || store.len() != BYTES {
        return Err(1);
    }
    let (mut new_words, mut new_store) = ([0; WORDS], [0; BYTES]);
    let read = Rest(snapshot).table(&mut new_words, &mut new_store);
    if read.is_none() || judged(&new_words, &new_store).is_err() {
        return Err(23);
    }
    words.copy_from_slice(&new_words);
    store.copy_from_slice(&new_store);
    Ok(())
}
