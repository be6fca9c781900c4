//! Lines about one table.
//!
//!     # a comment, printed as it stands
//!     F value                 every word is the value, and every byte its lowest byte
//!     E value                 the same, and then a small sound table: 2 exporters, 3 objects, 4 interfaces and 2 sets
//!     U list                  a full table, by calls from a reset, each exporter with this list: prints its census
//!     W column row value      a word, by the names of `decode::columns`
//!     B row offset hex        bytes from the start of the list of an exporter's row; of the row after the last, free bytes
//!     b place hex             bytes of the store
//!     P                       prints the live entries
//!     G                       the lowest, then the highest bit of each word of a column, and of each byte of the lists, changed: how many
//!                             leave the table sound
//!     N words bytes CALL      a call that is lent the first so many words and bytes
//!     J                       whether the table is sound
//!     CALL                    a call by its letter, then its arguments, as the table in `call.rs` has them
//!     w oxid room n protocol  a resolve by protocols, n times this one
//!     H room                  writes the snapshot, which `i` and `y` then load
//!     i changes..             loads the last one that was written, with changes: `cut k`, `put k hex`, `insert k hex`
//!     y                       loads every shorter front of it: how many are refused by 23, and whether the table is kept
//!     z way client room n bytes item  a list of adds (way 0) or releases (1) of n times the item and so many bytes more
//!     Z set sequence oid n m  a complex ping with n times the oid on its list of adds and m times on that of deletes
//!
//! A GUID is its two halves; a list of numbers begins with how many there are; bytes are in hex, `@n` is a list of n words with one
//! binding. One of over 300 words is printed so, too. After an answer stands " kept" where the call left every word and byte as it was
//! lent.

use super::{all_seen, each_line, hex, text, Arguments, Seen};
use crate::call::{buffer, Call, Reply, ANSWERS};
use crate::calls::LENGTH;
use crate::decode::{self, encode, guid, EXPORTERS, INTERFACES, OBJECTS, SETS};
use crate::generate::long_list;
use crate::model_side::Model;
use crate::subject::{Library, Subject};
use model::bytes::read_reference;
use model::entries::{Entries, Exporter, Interface, Object, PingSet, Way};
use std::fmt::Write;
use std::marker::PhantomData;

/// Where a next stop stands: whether in the store, from, to.
type Place = (bool, usize, usize);

pub trait Stops: Subject {
    fn stop(words: &[u64], store: &[u8], reference: &[u8], reply: &Reply) -> Place;
}

impl Stops for Library {
    fn stop(words: &[u64], store: &[u8], reference: &[u8], _: &Reply) -> Place {
        let (w, n, s, m) = (words.as_ptr(), words.len(), store.as_ptr(), store.len());
        // SAFETY: each pointer and length are of one slice.
        let r = unsafe {
            rimonakh::ffi::rimonakh_next_stop(w, n, s, m, reference.as_ptr(), reference.len())
        };
        (r.in_store, r.from, r.to)
    }
}

impl Stops for Model {
    fn stop(words: &[u64], store: &[u8], reference: &[u8], reply: &Reply) -> Place {
        if reply.number != 0 {
            return (false, 0, 0);
        }
        let (fields, tail) = read_reference(reference).expect("a reference");
        if reply.values[0] == 0 {
            return (false, tail.start, tail.end);
        }
        let rows = EXPORTERS.rows(words);
        let row = rows.iter().position(|r| r[0] == fields.oxid);
        let from = decode::list_start(store, row.expect("live"));
        (true, from, from + reply.bytes.len())
    }
}

/// A table, the snapshot that was written last, and the answers that occurred.
struct Lines<S> {
    words: Vec<u64>,
    store: Vec<u8>,
    saved: Vec<u8>,
    seen: Seen,
    side: PhantomData<S>,
}

pub fn run<S: Stops>(input: &[u8]) -> String {
    let mut lines = Lines::<S> {
        words: vec![0; LENGTH],
        store: vec![0; LENGTH],
        saved: Vec::new(),
        seen: Seen::new(),
        side: PhantomData,
    };
    let out = each_line(input, |letter, a| lines.line(letter, a));
    all_seen(ANSWERS, &lines.seen);
    out
}

impl<S: Stops> Lines<S> {
    /// What a line prints.
    fn line(&mut self, letter: u8, mut a: Arguments) -> String {
        let (words, store) = (&mut self.words, &mut self.store);
        match letter {
            b'F' | b'E' | b'W' | b'B' | b'b' => self.put(letter, a),
            b'U' => return full::<S>(a.name(), words, store, &mut self.seen),
            b'G' => return flip_bits::<S>(words, store),
            b'P' => return print_entries(words, store),
            b'H' => return self.save(a.number() as usize),
            b'i' => {
                let snapshot = a.changed(self.saved.clone());
                let load = Call::LoadSnapshot { snapshot };
                return performed::<S>(&load, words, store, &mut self.seen);
            }
            b'y' => return self.load_fronts(),
            b'N' => {
                let (n, m) = (a.number() as usize, a.number() as usize);
                let letter = a.rest[1];
                a.rest = &a.rest[2..];
                return called::<S>(letter, a, &mut words[..n], &mut store[..m], &mut self.seen);
            }
            _ => return called::<S>(letter, a, words, store, &mut self.seen),
        }
        String::new()
    }

    /// Words and bytes put into the table.
    fn put(&mut self, letter: u8, mut a: Arguments) {
        let Lines { words, store, .. } = self;
        let at = match letter {
            b'W' => {
                let name = a.name();
                let found = decode::columns();
                let column = found.iter().find(|c| c.name.as_bytes() == name);
                let row = a.number() as usize;
                words[column.expect("a column's name").first + row] = a.number();
                return;
            }
            b'B' => decode::list_start(store, a.number() as usize) + a.number() as usize,
            b'b' => a.number() as usize,
            _ => {
                let value = a.number();
                words.fill(value);
                store.fill(value as u8);
                if letter == b'E' {
                    encode(&small(), words, store);
                }
                return;
            }
        };
        let bytes = a.bytes();
        store[at..at + bytes.len()].copy_from_slice(&bytes);
    }

    /// Writes the snapshot.
    fn save(&mut self, room: usize) -> String {
        let call = Call::WriteSnapshot { room };
        let r = S::perform(&mut self.words, &mut self.store, &call);
        self.seen.insert((call.letter(), r.number));
        let written = front(&r, r.values[0] as usize);
        if r.number == 0 {
            self.saved = written.to_vec();
        }
        let (length, bytes) = (written.len(), snapshot_hex(written));
        format!("{} length {length} {bytes}\n", r.number)
    }

    /// Loads every shorter front of the snapshot.
    fn load_fronts(&mut self) -> String {
        let before = (self.words.clone(), self.store.clone());
        let loads = (0..self.saved.len()).map(|n| {
            let snapshot = self.saved[..n].to_vec();
            let load = Call::LoadSnapshot { snapshot };
            S::perform(&mut self.words, &mut self.store, &load).number
        });
        let refused = loads.filter(|number| *number == 23).count();
        let kept = before == (self.words.clone(), self.store.clone());
        format!("{refused} of {} kept {kept}\n", self.saved.len())
    }
}

/// The front of a reply's buffer, behind which it is kept.
fn front(r: &Reply, length: usize) -> &[u8] {
    let (front, rest) = r.bytes.split_at(length);
    assert_eq!(
        rest,
        &buffer(r.bytes.len())[length..],
        "the rest of the buffer is kept"
    );
    front
}

/// A small sound table, with a no-ping object that was heard long ago, counts at both ends, and a set just in time.
fn small() -> Entries {
    let list = "15000e00070067007700300031005b00340039003600360038005d00000000000a00ffff72007000630000000000";
    let list = Arguments {
        rest: list.as_bytes(),
    };
    let exporter = |oxid, unknown, list| Exporter {
        oxid,
        unknown,
        list,
    };
    let object = |oid, exporter, no_ping, heard| Object {
        oid,
        exporter,
        no_ping,
        heard,
    };
    let interface = |ipid, iid, object, public, private| Interface {
        ipid,
        iid,
        object,
        public,
        private: [private, 0, 0, 0, 0, 0, 0, 0],
    };
    let set = |number, sequence, pinged, members: &[u64]| PingSet {
        number,
        sequence,
        pinged,
        members: members.iter().copied().collect(),
    };
    Entries {
        clock: 1000,
        next_set: 5,
        exporters: vec![
            exporter(81, guid(97, 98), list.bytes()),
            exporter(82, guid(99, 100), vec![2, 0, 1, 0, 0, 0, 0, 0]),
        ],
        objects: vec![
            object(65, 81, false, 1000),
            object(66, 82, true, 10),
            object(67, 81, false, 641),
        ],
        interfaces: vec![
            interface(guid(113, 114), guid(1, 2), 65, 3, 0),
            interface(guid(115, 114), guid(1, 2), 66, 0, 1),
            interface(guid(113, 115), guid(1, 2), 67, u32::MAX, 0),
            interface(guid(116, 0), guid(0, 0), 65, 1, 1),
        ],
        sets: vec![set(4, 65535, 641, &[65, 67]), set(1, 0, 1000, &[])],
    }
}

/// A full table by calls: 16 exporters, 128 objects, each with two interfaces, and 32 sets, each with every object. Every call is
/// accepted; what the census says.
fn full<S: Stops>(list: &[u8], words: &mut [u64], store: &mut [u8], seen: &mut Seen) -> String {
    let list = String::from_utf8_lossy(list);
    let mut lines = vec!["R 7".to_string()];
    lines.extend((0..16).map(|i| format!("X {} {} 0 {list}", i + 1, 1000 + i)));
    lines.extend((0..128).map(|i| {
        let (oid, exporter) = (i + 1, i % 16 + 1);
        format!("O {oid} {exporter} {} 0 5 5 {oid} 0", 2000 + i)
    }));
    lines.extend((0..128).map(|i| format!("I {} {} 0 5 5 1", i + 1, 3000 + i)));
    let oids: String = (1..=128).map(|oid| format!(" {oid}")).collect();
    lines.extend((0..32).map(|_| format!("Q 0 1 128{oids} 0")));
    for line in lines {
        let rest = &line.as_bytes()[1..];
        let answer = called::<S>(line.as_bytes()[0], Arguments { rest }, words, store, seen);
        assert!(answer.starts_with('0'), "{line}: {answer}");
    }
    called::<S>(b'C', Arguments { rest: b"" }, words, store, seen)
}

/// Of each column, and of the lists, how many words and bytes leave the table sound when their lowest, and when their highest bit
/// is changed.
fn flip_bits<S: Stops>(words: &mut [u64], store: &mut [u8]) -> String {
    let mut out = String::new();
    for column in decode::columns() {
        let (name, first, places) = (column.name, column.first, column.places);
        write!(out, "{name}").unwrap();
        for bit in [1, 1 << 63] {
            let mut sound = 0;
            for at in first..first + places {
                words[at] ^= bit;
                sound += (S::perform(words, store, &Call::Census {}).number == 0) as usize;
                words[at] ^= bit;
            }
            write!(out, " {sound} of {places}").unwrap();
        }
        out.push('\n');
    }
    write!(out, "lists").unwrap();
    for bit in [1, 1 << 7] {
        let (mut sound, mut all) = (0, 0);
        for row in 0..EXPORTERS.live(words) {
            let length = decode::list(store, row).len();
            let from = decode::list_start(store, row);
            for at in from..from + length {
                store[at] ^= bit;
                sound += (S::perform(words, store, &Call::Census {}).number == 0) as usize;
                store[at] ^= bit;
            }
            all += length;
        }
        write!(out, " {sound} of {all}").unwrap();
    }
    out.push('\n');
    out
}

/// The call of a line, performed.
fn called<S: Stops>(
    letter: u8,
    a: Arguments,
    words: &mut [u64],
    store: &mut [u8],
    seen: &mut Seen,
) -> String {
    if letter != b'J' {
        return performed::<S>(&call(letter, a), words, store, seen);
    }
    let answer = performed::<S>(&Call::Census {}, words, store, &mut Seen::new());
    let sound = if answer.starts_with("1 ") {
        "unsound"
    } else {
        "sound"
    };
    let kept = if answer.ends_with(" kept\n") {
        " kept"
    } else {
        ""
    };
    format!("{sound}{kept}\n")
}

/// The call of a line. Three letters have lists that are said shorter.
pub fn call(letter: u8, mut a: Arguments) -> Call {
    match letter {
        b'z' => {
            let way = [Way::Add, Way::Release][a.number() as usize];
            let (client, room) = (a.number() as u32, a.number() as usize);
            let (n, more) = (a.number() as usize, a.number() as usize);
            let mut items = a.bytes().repeat(n);
            items.resize(items.len() + more, 0);
            Call::count_list(way, client, room, items)
        }
        b'Z' => {
            let (set, sequence, oid) = (a.number(), a.number() as u16, a.number());
            Call::ComplexPing {
                set,
                sequence,
                adds: vec![oid; a.number() as usize],
                deletes: vec![oid; a.number() as usize],
            }
        }
        b'w' => {
            let (oxid, room, n) = (a.number(), a.number() as usize, a.number() as usize);
            Call::ResolveFiltered {
                oxid,
                room,
                protocols: vec![a.number() as u16; n],
            }
        }
        _ => {
            Call::read(letter, &mut a).unwrap_or_else(|| panic!("no such line: {}", letter as char))
        }
    }
}

/// A call, what it answers, and whether it left what it was lent.
fn performed<S: Stops>(
    call: &Call,
    words: &mut [u64],
    store: &mut [u8],
    seen: &mut Seen,
) -> String {
    let before = (words.to_vec(), store.to_vec());
    let r = S::perform(words, store, call);
    seen.insert((call.letter(), r.number));
    let mut out = r.number.to_string() + &said::<S>(call, &r, words, store);
    // an accepted load may write free places anew
    let loaded = matches!(call, Call::LoadSnapshot { .. }) && r.number == 0;
    if before.0 == words && before.1 == store && !loaded {
        out += " kept";
    }
    out + "\n"
}

/// What is printed of a reply behind its number.
fn said<S: Stops>(call: &Call, r: &Reply, words: &[u64], store: &[u8]) -> String {
    let values = &r.values;
    match call {
        Call::Resolve { room, .. } | Call::ResolveFiltered { room, .. } => {
            let list = front(r, values[0] as usize);
            let rest = "ee".repeat(room - list.len());
            let unknown = text(&guid(values[1], values[2]));
            let (length, list) = (list.len(), list_hex(list));
            format!(" length {length} unknown {unknown} buffer {list}{rest}")
        }
        Call::AddList { items, .. } | Call::ReleaseList { items, .. } => {
            let n = if r.number == 0 { items.len() / 24 } else { 0 };
            format!(" results {}", runs_of(front(r, n)))
        }
        Call::NextStop { reference } => {
            let (in_store, from, to) = S::stop(words, store, reference, r);
            let which = if in_store { "store" } else { "reference" };
            format!(" {which} {from} to {to} {}", list_hex(&r.bytes))
        }
        Call::WriteSnapshot { .. } => String::new(),
        _ => {
            let named = call.results().iter().zip(values);
            named
                .map(|(name, value)| format!(" {name} {value}"))
                .collect()
        }
    }
}

/// The numbers of items, each run of the same ones as one: `3x0 6` for 0, 0, 0, 6.
fn runs_of(results: &[u8]) -> String {
    let runs = results.chunk_by(|a, b| a == b).map(|run| match run.len() {
        1 => run[0].to_string(),
        n => format!("{n}x{}", run[0]),
    });
    runs.collect::<Vec<String>>().join(" ")
}

/// A snapshot in hex; of a long one a checksum (FNV-1a).
fn snapshot_hex(bytes: &[u8]) -> String {
    if bytes.len() <= 600 {
        return hex(bytes);
    }
    let sum = |sum: u64, b: &u8| (sum ^ *b as u64).wrapping_mul(0x100_0000_01b3);
    let sum = bytes.iter().fold(0xcbf2_9ce4_8422_2325, sum);
    format!("checksum {sum:016x}")
}

/// A list in hex; one of over 300 words with one binding as its number of words.
fn list_hex(list: &[u8]) -> String {
    if list.len() > 604 && list == long_list(list.len()) {
        return format!("@{}", list.len() / 2 - 2);
    }
    hex(list)
}

/// The live entries, one to a line: the words of each row in hex.
pub fn print_entries(words: &[u64], store: &[u8]) -> String {
    let mut out = String::new();
    writeln!(out, "clock {} next {}", words[0], words[1]).unwrap();
    for kind in [EXPORTERS, OBJECTS, INTERFACES, SETS] {
        for (i, row) in kind.rows(words).iter().enumerate() {
            out.push_str(kind.name);
            for word in row {
                write!(out, " {word:x}").unwrap();
            }
            if kind.count == EXPORTERS.count {
                write!(out, " {}", list_hex(&decode::list(store, i))).unwrap();
            }
            out.push('\n');
        }
    }
    out
}
