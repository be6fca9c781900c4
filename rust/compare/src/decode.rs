//! Which word of the array and which byte of the store hold what (crates/table_view/specs/View.antt): the live entries are read from
//! there, and put there. No other file here knows a word's number.

use crate::call::halves;
use model::entries::{Entries, Exporter, Interface, Object, PingSet};
use model::snapshot::sorted;
use model::Guid;

/// The words before the rows: clock, next set number and the live numbers of the kinds.
const HEAD: [&str; 6] = [
    "clock",
    "next_set",
    "exporters",
    "objects",
    "interfaces",
    "sets",
];

/// The rows of a kind: the word of their number, their first word, their places and their columns.
pub struct Kind {
    pub name: &'static str,
    pub count: usize,
    base: usize,
    places: usize,
    columns: &'static [&'static str],
}

pub const EXPORTERS: Kind = Kind {
    name: "exporter",
    count: 2,
    base: 16,
    places: 16,
    columns: &["oxid", "unknown_low", "unknown_high"],
};
pub const SETS: Kind = Kind {
    name: "set",
    count: 5,
    base: 64,
    places: 32,
    columns: &["set", "sequence", "pinged", "members_low", "members_high"],
};
pub const OBJECTS: Kind = Kind {
    name: "object",
    count: 3,
    base: 256,
    places: 128,
    columns: &["oid", "exporter", "no_ping", "heard"],
};
pub const INTERFACES: Kind = Kind {
    name: "interface",
    count: 4,
    base: 768,
    places: 256,
    columns: &[
        "ipid_low",
        "ipid_high",
        "iid_low",
        "iid_high",
        "object",
        "public",
        "private_0",
        "private_1",
        "private_2",
        "private_3",
        "private_4",
        "private_5",
        "private_6",
        "private_7",
    ],
};

impl Kind {
    /// How many rows are live.
    pub fn live(&self, words: &[u64]) -> usize {
        words[self.count].min(self.places as u64) as usize
    }

    pub fn row(&self, words: &[u64], i: usize) -> Vec<u64> {
        let word = |j| words[self.base + j * self.places + i];
        (0..self.columns.len()).map(word).collect()
    }

    pub fn put_row(&self, words: &mut [u64], i: usize, values: &[u64]) {
        assert_eq!(values.len(), self.columns.len());
        for (j, value) in values.iter().enumerate() {
            words[self.base + j * self.places + i] = *value;
        }
    }

    /// The live rows.
    pub fn rows(&self, words: &[u64]) -> Vec<Vec<u64>> {
        (0..self.live(words)).map(|i| self.row(words, i)).collect()
    }
}

/// A column of the array: its name, its first word, its places, and the word that says how many are live.
pub struct Column {
    pub name: &'static str,
    pub first: usize,
    pub places: usize,
    count: Option<usize>,
}

impl Column {
    /// How many rows are live.
    pub fn live(&self, words: &[u64]) -> usize {
        let live = |count: usize| words[count].min(self.places as u64) as usize;
        self.count.map_or(self.places, live)
    }
}

/// Every column of the array, in the order of its words.
pub fn columns() -> Vec<Column> {
    let head = HEAD.iter().enumerate().map(|(first, name)| Column {
        name,
        first,
        places: 1,
        count: None,
    });
    let of = |kind: &Kind| {
        let (base, places, count) = (kind.base, kind.places, kind.count);
        let column = move |(j, name): (usize, &&'static str)| Column {
            name,
            first: base + j * places,
            places,
            count: Some(count),
        };
        kind.columns.iter().enumerate().map(column)
    };
    let kinds = [EXPORTERS, SETS, OBJECTS, INTERFACES];
    head.chain(kinds.iter().flat_map(of)).collect()
}

pub fn guid(low: u64, high: u64) -> Guid {
    let mut g = [0; 16];
    g[..8].copy_from_slice(&low.to_le_bytes());
    g[8..].copy_from_slice(&high.to_le_bytes());
    g
}

/// The length of the list at a place of the store, as its own N says; where fewer than two bytes are left N is 0.
fn list_length(store: &[u8], at: usize) -> usize {
    let n = store.get(at..at + 2);
    4 + 2 * n.map_or(0, |n| u16::from_le_bytes([n[0], n[1]]) as usize)
}

/// Where the list of an exporter's row begins: the lists stand end to end, in the order of the rows.
pub fn list_start(store: &[u8], row: usize) -> usize {
    (0..row).fold(0, |at, _| at + list_length(store, at))
}

/// The bytes of the list of an exporter's row, as far as they are there.
pub fn list(store: &[u8], row: usize) -> Vec<u8> {
    let from = list_start(store, row);
    let to = from + list_length(store, from);
    store[from.min(store.len())..to.min(store.len())].to_vec()
}

pub fn entries(words: &[u64], store: &[u8]) -> Entries {
    let objects: Vec<Object> = OBJECTS
        .rows(words)
        .iter()
        .map(|r| Object {
            oid: r[0],
            exporter: r[1],
            no_ping: r[2] != 0,
            heard: r[3],
        })
        .collect();
    let members = |low: u64, high: u64| {
        let bits = low as u128 | (high as u128) << 64;
        let rows = (0..128).filter(move |row| bits >> row & 1 != 0);
        rows.map(|row| objects.get(row).map_or(0, |o| o.oid))
            .collect()
    };
    let exporter = |(i, r): (usize, &Vec<u64>)| Exporter {
        oxid: r[0],
        unknown: guid(r[1], r[2]),
        list: list(store, i),
    };
    let interface = |r: &Vec<u64>| Interface {
        ipid: guid(r[0], r[1]),
        iid: guid(r[2], r[3]),
        object: r[4],
        public: r[5] as u32,
        private: std::array::from_fn(|client| r[6 + client] as u32),
    };
    let set = |r: &Vec<u64>| PingSet {
        number: r[0],
        sequence: r[1] as u16,
        pinged: r[2],
        members: members(r[3], r[4]),
    };
    Entries {
        clock: words[0],
        next_set: words[1],
        exporters: EXPORTERS
            .rows(words)
            .iter()
            .enumerate()
            .map(exporter)
            .collect(),
        interfaces: INTERFACES.rows(words).iter().map(interface).collect(),
        sets: SETS.rows(words).iter().map(set).collect(),
        objects,
    }
}

/// Puts live entries into their words and bytes, a kind's rows from its first on; the other words and bytes stay.
pub fn encode(e: &Entries, words: &mut [u64], store: &mut [u8]) {
    words[0] = e.clock;
    words[1] = e.next_set;
    words[EXPORTERS.count] = e.exporters.len() as u64;
    words[OBJECTS.count] = e.objects.len() as u64;
    words[INTERFACES.count] = e.interfaces.len() as u64;
    words[SETS.count] = e.sets.len() as u64;
    let mut from = 0;
    for (i, x) in e.exporters.iter().enumerate() {
        let [low, high] = halves(x.unknown);
        EXPORTERS.put_row(words, i, &[x.oxid, low, high]);
        let to = from + x.list.len();
        store[from..to].copy_from_slice(&x.list);
        from = to;
    }
    for (i, s) in e.sets.iter().enumerate() {
        let held = |bits: u128, (row, o): (usize, &Object)| {
            bits | (s.members.contains(&o.oid) as u128) << row
        };
        let bits = e.objects.iter().enumerate().fold(0, held);
        let (low, high) = (bits as u64, (bits >> 64) as u64);
        SETS.put_row(
            words,
            i,
            &[s.number, s.sequence.into(), s.pinged, low, high],
        );
    }
    for (i, o) in e.objects.iter().enumerate() {
        OBJECTS.put_row(words, i, &[o.oid, o.exporter, o.no_ping.into(), o.heard]);
    }
    for (i, x) in e.interfaces.iter().enumerate() {
        let ([low, high], [iid_low, iid_high]) = (halves(x.ipid), halves(x.iid));
        let mut row = vec![low, high, iid_low, iid_high, x.object, x.public.into()];
        row.extend(x.private.map(u64::from));
        INTERFACES.put_row(words, i, &row);
    }
}

/// Whether the same entries are live, in whatever order.
pub fn same(a: &Entries, b: &Entries) -> bool {
    a == b || sorted(a) == sorted(b)
}
