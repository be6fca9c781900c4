//! Rows of lists of adds and releases: request 9.

use crate::data::{guid, ipid, rich_table, RICH};
use crate::measure::{Bench, Lent, Row, State};
use plain::table as pt;
use rimonakh::{Item, Result};
use std::collections::HashMap;

/// Items of a list.
const LIST: usize = 1000;

/// A list of items that is added or given back.
struct Sent {
    back: bool,
    client: u32,
    items: Vec<u8>,
}

impl Sent {
    fn library(&self, mut table: Lent, results: &mut [u8]) -> Result<()> {
        if self.back {
            table.release_list(self.client, &self.items, results)
        } else {
            table.add_list(self.client, &self.items, results)
        }
    }

    fn careful(&self, s: &mut State) -> std::result::Result<(), u32> {
        let (items, results) = (&self.items, &mut s.out);
        pt::count_list(
            &mut s.words,
            &s.store,
            self.back,
            self.client,
            items,
            results,
        )
    }
}

/// A million mixed adds and releases in lists of 1,000 on a full table, then lists in which interfaces go.
pub fn request_9(bench: &mut Bench) {
    bench.group("An item of a list of 1,000 on a full table");
    let table = rich_table(0..8).with_room(LIST);
    let lists = if bench.counts() { 100 } else { 1000 };
    let mut random = Random(1);
    for (what, unknown) in [("all live", 0), ("a tenth unknown", 10)] {
        let run: Vec<Sent> = (0..lists).map(|_| random.sent(unknown)).collect();
        let name = format!("request 9, {what}");
        both(bench.row(&name).each(LIST * lists), &table, &run);
        let row = bench.row(format!("{name}, a HashMap never judged"));
        row.each(LIST * lists).run(
            &table,
            |s| library(&run, s),
            |s| {
                let mut kept = Kept::rich();
                run.iter().for_each(|list| kept.count(list, &mut s.out));
                std::result::Result::<(), ()>::Ok(())
            },
        );
    }
    let table = rich_table(2..3).with_room(LIST);
    for (what, going) in [("8 of 1,000", 8), ("64 of 1,000", 64), ("all 256", 256)] {
        let row = bench.row(format!("request 9, {what} go"));
        both(row.each(LIST).again(), &table, &[random.draining(going)]);
    }
}

/// Lists of other lengths.
pub fn lengths(bench: &mut Bench) {
    bench.group("A list of adds on a full table");
    let mut random = Random(2);
    for n in [1, 10, 100, 1000, 10_000, 65_535] {
        let sent = Sent {
            back: false,
            client: 0,
            items: random.items(n, 0),
        };
        let row = bench.row(format!("add list of {n}"));
        both(row, &rich_table(0..1).with_room(n), &[sent]);
    }
}

fn both(row: Row, table: &State, run: &[Sent]) {
    row.run(
        table,
        |s| library(run, s),
        |s| run.iter().try_for_each(|list| list.careful(s)),
    );
}

fn library(run: &[Sent], s: &mut State) -> Result<()> {
    run.iter().try_for_each(|list| {
        let (table, results) = s.parts();
        list.library(table, results)
    })
}

/// Numbers by xorshift, the same in each run.
struct Random(u64);

impl Random {
    fn word(&mut self) -> u64 {
        self.0 ^= self.0 << 13;
        self.0 ^= self.0 >> 7;
        self.0 ^= self.0 << 17;
        self.0
    }

    /// A number below n.
    fn below(&mut self, n: u64) -> u64 {
        (self.word() >> 20) % n
    }

    /// Items with few references each, of a hundred so many unknown.
    fn items(&mut self, n: usize, unknown: u64) -> Vec<u8> {
        let mut item = |_| {
            let live = self.below(100) >= unknown;
            let k = self.below(256) + if live { 0 } else { 5000 };
            self.item(k)
        };
        (0..n).flat_map(&mut item).collect()
    }

    fn item(&mut self, k: u64) -> [u8; Item::SIZE] {
        Item {
            ipid: guid(ipid(k)),
            public: self.below(4) as u32,
            private: self.below(4) as u32,
        }
        .to_bytes()
    }

    fn sent(&mut self, unknown: u64) -> Sent {
        Sent {
            back: self.below(2) == 0,
            client: self.below(8) as u32,
            items: self.items(LIST, unknown),
        }
    }

    /// Releases of client 2, some of which, spread evenly, take all that is left of an interface, each of another one.
    fn draining(&mut self, going: usize) -> Sent {
        let every = LIST / going;
        let mut item = |n: usize| {
            if n.is_multiple_of(every) && n / every < going {
                let ipid = guid(ipid((n / every * (256 / going)) as u64));
                let (public, private) = (u32::MAX, u32::MAX);
                return Item {
                    ipid,
                    public,
                    private,
                }
                .to_bytes();
            }
            let k = self.below(256);
            self.item(k)
        };
        Sent {
            back: true,
            client: 2,
            items: (0..LIST).flat_map(&mut item).collect(),
        }
    }
}

/// What a program of one's own may keep: the public count and those of eight clients, by IPID. Nothing is judged.
struct Kept(HashMap<u128, [u32; 9]>);

impl Kept {
    /// The counts of the rich table.
    fn rich() -> Kept {
        let mut counts = [RICH; 9];
        counts[0] += 5;
        Kept(
            (0..256)
                .map(|i| (u128::from_le_bytes(guid(ipid(i)).0), counts))
                .collect(),
        )
    }

    fn count(&mut self, list: &Sent, results: &mut [u8]) {
        for (item, result) in list.items.chunks_exact(Item::SIZE).zip(results) {
            let ipid = u128::from_le_bytes(item[..16].try_into().unwrap());
            let public = u32::from_le_bytes(item[16..20].try_into().unwrap());
            let private = u32::from_le_bytes(item[20..].try_into().unwrap());
            let own = 1 + list.client as usize;
            *result = match list.back {
                true => self.take(ipid, public, own, private),
                false => self.add(ipid, public, own, private),
            };
        }
    }

    fn add(&mut self, ipid: u128, public: u32, own: usize, private: u32) -> u8 {
        let Some(counts) = self.0.get_mut(&ipid) else {
            return 6;
        };
        let sums = (
            counts[0].checked_add(public),
            counts[own].checked_add(private),
        );
        let (Some(p), Some(q)) = sums else {
            return 8;
        };
        (counts[0], counts[own]) = (p, q);
        0
    }

    fn take(&mut self, ipid: u128, public: u32, own: usize, private: u32) -> u8 {
        let Some(counts) = self.0.get_mut(&ipid) else {
            return 6;
        };
        counts[0] -= public.min(counts[0]);
        counts[own] -= private.min(counts[own]);
        if *counts == [0; 9] {
            self.0.remove(&ipid);
        }
        0
    }
}
