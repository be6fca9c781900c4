//! Random lists, references and calls.

use crate::call::{Call, Step};
use crate::calls::LENGTH;
use crate::decode;
use crate::random::Random;
use model::bytes::filtered_list;
use model::contexts::MARSHALER;
use model::entries::{Entries, Way, EXPORTERS, INTERFACES, LONGEST_LIST, OBJECTS, SETS, STORE};
use model::snapshot::{sections, sorted};
use model::Guid;
use std::ops::Range;
use std::sync::OnceLock;

// ---- bytes

/// A binding list that keeps the rules; often the one without words.
fn proper_list(random: &mut Random) -> Vec<u8> {
    if random.once_in(5) {
        return vec![0; 4];
    }
    let mut strings: Vec<u16> = Vec::new();
    let mut security: Vec<u16> = Vec::new();
    for _ in 0..random.below(4) {
        strings.push(random.pick(&[7, 8, 0x1F, 0xFFFF]));
        text(random, &mut strings);
    }
    for _ in 0..random.below(3) {
        security.push(random.pick(&[9, 10, 16, 0x8000]));
        security.push(random.pick(&[0xFFFF, 0, 1]));
        text(random, &mut security);
    }
    strings.push(0);
    security.push(0);
    list_bytes(&strings, &security)
}

/// A list of so many bytes, at least 14: one string binding, and no security binding.
pub fn long_list(length: usize) -> Vec<u8> {
    let mut strings = vec![7];
    strings.resize(length / 2 - 5, b'a' as u16);
    strings.extend([0, 0]);
    list_bytes(&strings, &[0])
}

fn text(random: &mut Random, words: &mut Vec<u16>) {
    for _ in 0..random.pick(&[0, 0, 1, 5, 12]) {
        words.push(1 + random.below(0xFFFF) as u16);
    }
    words.push(0);
}

fn list_bytes(strings: &[u16], security: &[u16]) -> Vec<u8> {
    let n = (strings.len() + security.len()) as u16;
    let head = [n, strings.len() as u16];
    let words = head.iter().chain(strings).chain(security);
    words.flat_map(|w| w.to_le_bytes()).collect()
}

/// A list, which now and then breaks a rule.
pub fn list(random: &mut Random) -> Vec<u8> {
    let mut list = proper_list(random);
    if random.once_in(6) {
        damage(random, &mut list);
    }
    list
}

/// Changes, cuts off, puts in or takes out a few bytes.
pub fn damage(random: &mut Random, bytes: &mut Vec<u8>) {
    for _ in 0..1 + random.below(2) {
        let n = bytes.len();
        match random.below(7) {
            0 => bytes.truncate(random.below(n + 1)),
            1 => bytes.truncate(n.saturating_sub(1 + random.below(3))),
            2 => {
                let more = 1 + random.below(3);
                bytes.extend(random.bytes(more));
            }
            3 if n > 0 => bytes[random.below(n)] = random.pick(&[0, 1, 2, 4, 0xFF]),
            4 if n > 0 => bytes[random.below(n)] ^= 1 << random.below(8),
            5 if n > 0 => bytes[random.below(n.min(100))] = random.word() as u8,
            _ if n > 1 => {
                // a whole word becomes zero or anything
                let at = random.below(n / 2) * 2;
                let word = random.pick(&[0, 0, 1, 0xFFFF]) as u16;
                bytes[at..at + 2].copy_from_slice(&word.to_le_bytes());
            }
            _ => {}
        }
    }
}

/// Bytes of the block's identifiers in a reference: OXID, OID, IPID and its halves.
const IDENTIFIERS: [Range<usize>; 5] = [32..40, 40..48, 48..64, 48..56, 56..64];

/// A reference to an object of an exporter, which keeps the rules but that now and then an identifier, or half an IPID, is zero,
/// in it or in a reference inside it, or that references are nested too deep.
pub fn reference(random: &mut Random, oxid: u64) -> Vec<u8> {
    let levels = if random.once_in(4) {
        1 + random.below(10)
    } else {
        random.below(3)
    };
    nest(random, oxid, levels)
}

/// A standard, handler or custom reference, or one of them inside so many extended ones.
fn nest(random: &mut Random, oxid: u64, levels: usize) -> Vec<u8> {
    let flags = match levels {
        0 => random.pick(&[1u32, 1, 2, 4, 4]),
        _ => 8,
    };
    let mut bytes = b"MEOW".to_vec();
    bytes.extend(flags.to_le_bytes());
    bytes.extend(random.bytes(16));
    if flags == 4 {
        custom(random, &mut bytes);
        return bytes;
    }
    bytes.extend(random.pick(&[0u32, 0x1000, 0x280]).to_le_bytes());
    bytes.extend((random.below(6) as u32).to_le_bytes());
    bytes.extend(oxid.to_le_bytes());
    bytes.extend(random.bytes(if flags == 2 { 40 } else { 24 }));
    if flags == 8 {
        bytes.extend(EXTENDED);
    }
    bytes.extend(proper_list(random));
    if flags == 8 {
        bytes.extend([1, 0, 0, 0]);
        bytes.extend(EXTENDED);
        let data = match random.below(if levels == 1 { 4 } else { 1 }) {
            1 => random_data(random),
            _ => nest(random, oxid, levels - 1),
        };
        element(random, &data, &mut bytes);
    }
    if random.once_in(if levels > 2 { 20 } else { 6 }) {
        let zeros = &IDENTIFIERS[random.below(IDENTIFIERS.len())];
        bytes[zeros.clone()].fill(0);
    }
    bytes
}

/// The signature of an extended reference.
const EXTENDED: [u8; 4] = [0x56, 0x59, 0x53, 0x4E];

fn element(random: &mut Random, data: &[u8], bytes: &mut Vec<u8>) {
    let rounded = data.len().next_multiple_of(8);
    bytes.extend(random.bytes(16));
    bytes.extend((data.len() as u32).to_le_bytes());
    bytes.extend((rounded as u32).to_le_bytes());
    bytes.extend(data);
    bytes.resize(bytes.len() + rounded - data.len(), 0);
}

/// Data that is no reference, or only the front of one.
pub fn random_data(random: &mut Random) -> Vec<u8> {
    let front = random.pick(&[0, 0, 0, 3, 4]);
    let mut data = b"MEOW"[..front].to_vec();
    let more = 1 + random.below(20);
    data.extend(random.bytes(more));
    data
}

/// What a custom reference has after its header: CLSID, two sizes, and object data, often a context.
fn custom(random: &mut Random, bytes: &mut Vec<u8>) {
    let clsid = clsid(random);
    bytes.extend(clsid);
    bytes.extend(random.bytes(8));
    let other = if clsid == MARSHALER { 1 } else { 6 };
    if random.below(8) < other {
        let data = random.below(40);
        bytes.extend(random.bytes(data));
    } else {
        bytes.extend(context(random));
    }
}

/// A CLSID: every second time the context marshaler's, or nearly so.
pub fn clsid(random: &mut Random) -> Guid {
    let mut clsid = MARSHALER;
    match random.below(6) {
        0..=2 => {}
        3 => clsid[random.below(16)] ^= 1 << random.below(8),
        _ => clsid = random.bytes(16).try_into().unwrap(),
    }
    clsid
}

/// A context, with its properties, which keeps the rules.
pub fn context(random: &mut Random) -> Vec<u8> {
    let count = random.below(4);
    let mut bytes = vec![1, 0, 1, 0];
    bytes.extend(random.bytes(16));
    bytes.extend([2, 0, 0, 0]);
    bytes.extend(random.bytes(4));
    bytes.extend([0; 8]);
    bytes.extend(random.bytes(4));
    bytes.extend((count as u32).to_le_bytes());
    bytes.extend(random.bytes(4));
    for _ in 0..count {
        property(random, &mut bytes);
    }
    bytes
}

pub fn property(random: &mut Random, bytes: &mut Vec<u8>) {
    let size = random.pick(&[0, 0, 1, 3, 8, 17]);
    bytes.extend(random.bytes(32));
    bytes.extend(random.pick(&[1u32, 2, 4]).to_le_bytes());
    bytes.extend((size as u32).to_le_bytes());
    bytes.extend(random.bytes(size));
}

// ---- calls

/// Entries with one thing changed: an order, a time, a number, a count, a name, a row twice. They may be sound still.
fn alter(random: &mut Random, e: &mut Entries) {
    let one = |n: usize, random: &mut Random| random.below(n.max(1));
    let (x, o) = (one(e.exporters.len(), random), one(e.objects.len(), random));
    let (i, s) = (one(e.interfaces.len(), random), one(e.sets.len(), random));
    let time = e.clock.wrapping_sub(random.pick(&[0, 359, 360, u64::MAX]));
    match random.below(16) {
        0 => e.exporters.reverse(),
        1 => e.objects.reverse(),
        2 => e.interfaces.sort_by_key(|i| u128::from_le_bytes(i.ipid)),
        3 => e.sets.reverse(),
        4 => e.clock = e.clock.saturating_add(random.pick(&[1, 359, 360])),
        5 => e.next_set = random.pick(&[0, 1, e.next_set.wrapping_sub(1), u64::MAX]),
        6 if x < e.exporters.len() => e.exporters[x].list = list(random),
        7 if x < e.exporters.len() => e.exporters.insert(x, e.exporters[x].clone()),
        8 if o < e.objects.len() => e.objects[o].heard = time,
        9 if o < e.objects.len() => e.objects[o].no_ping = !e.objects[o].no_ping,
        10 if o < e.objects.len() => e.objects[o].exporter ^= 1,
        11 if i < e.interfaces.len() => e.interfaces[i].public = random.pick(&[0, 1, u32::MAX]),
        12 if i < e.interfaces.len() => e.interfaces[i].iid = random.bytes(16).try_into().unwrap(),
        13 if s < e.sets.len() => e.sets[s].pinged = time,
        14 if s < e.sets.len() => {
            let oids: Vec<u64> = e.objects.iter().map(|o| o.oid).chain([0]).collect();
            e.sets[s].members.insert(random.pick(&oids));
        }
        15 if s < e.sets.len() => e.sets[s].sequence = random.word() as u16,
        _ => {}
    }
}

/// The words that share both buckets of the library's indexes (`table_columns/specs/Buckets.antt`), by number: each is searched for.
fn crowded(i: u64) -> u64 {
    static FOUND: OnceLock<Vec<u64>> = OnceLock::new();
    let bucket = |x: u64| (x % (1 << 32) * 961_217_543 + (x >> 32) * 699_039_225) >> 20 & 0xFFF;
    let found = || {
        let second = (1..).map(|n: u64| n << 12);
        second.filter(|&x| bucket(x) == 0).take(512).collect()
    };
    FOUND.get_or_init(found)[i as usize]
}

/// Counts of references.
const COUNTS: [u32; 10] = [0, 1, 1, 2, 2, 3, 5, u32::MAX, u32::MAX - 1, 1 << 31];

/// Which identifiers a run uses, and how often it makes which call.
pub struct Pools {
    exporters: usize,
    objects: usize,
    ipids: usize,
    /// How the number of an identifier becomes its bits.
    style: usize,
    /// How seldom time passes and what is there goes.
    calm: usize,
    /// Whether most lists of exporters are long.
    long: bool,
    /// Whether words and bytes are changed behind the calls.
    pub pokes: bool,
}

impl Pools {
    pub fn new(random: &mut Random, pokes: bool) -> Pools {
        let (exporters, objects, ipids, calm) = random.pick(&[
            (2, 4, 6, 1),
            (5, 12, 30, 2),
            (18, 60, 120, 6),
            (17, 150, 320, 60),
        ]);
        Pools {
            exporters,
            objects,
            ipids,
            style: random.below(4),
            calm,
            long: random.once_in(3),
            pokes,
        }
    }

    fn number(&self, random: &mut Random, among: usize) -> u64 {
        if random.once_in(60) {
            return 0;
        }
        let i = 1 + random.below(among) as u64;
        match self.style {
            0 => i,
            1 => i << 40,
            2 => u64::MAX - i,
            _ => crowded(i),
        }
    }

    /// The list of an exporter: now and then as long as a list may be, or as fills the store, or a word shorter or longer.
    fn exporter_list(&self, random: &mut Random, e: &Entries) -> Vec<u8> {
        if random.once_in(4) || !(self.long || random.once_in(8)) {
            return list(random);
        }
        let free = STORE.saturating_sub(e.list_bytes());
        let length = free.min(LONGEST_LIST) + random.pick(&[0, 0, 2, 4]);
        long_list(length.saturating_sub(2 * random.below(2)).max(14))
    }

    fn oxid(&self, random: &mut Random) -> u64 {
        self.number(random, self.exporters)
    }

    fn oid(&self, random: &mut Random) -> u64 {
        self.number(random, self.objects)
    }

    /// GUIDs that differ in either half, or in both.
    fn guid(&self, random: &mut Random) -> Guid {
        if random.once_in(60) {
            return [0; 16];
        }
        let i = 1 + random.below(self.ipids) as u128;
        let number = match self.style {
            0 => i,
            1 => i << 64,
            2 => (i % 5) | (i / 5 + 1) << 90,
            _ => crowded(i as u64) as u128,
        };
        number.to_le_bytes()
    }

    /// A list of items; now and then its length or its results' are off, or it has as many items as a list may have, or more.
    fn count_list(&self, random: &mut Random) -> Call {
        let counts = [0, 1, 1, 2, 3, u32::MAX];
        let way = random.pick(&[Way::Add, Way::Add, Way::Release]);
        let mut items: Vec<u8> = Vec::new();
        for _ in 0..random.pick(&[0, 1, 2, 3, 5, 9, 30]) {
            items.extend(self.guid(random));
            items.extend(random.pick(&counts).to_le_bytes());
            items.extend(random.pick(&counts).to_le_bytes());
        }
        if random.once_in(60) && items.len() >= 24 {
            let item = items[..24].to_vec();
            items = item.repeat(random.pick(&[65_535, 65_536]));
        }
        if random.once_in(12) {
            items.extend(random.bytes(1));
        } else if random.once_in(12) {
            items.pop();
        }
        let n = items.len() / 24;
        let room = random.pick(&[n, n, n, n + 1, n + 7, n.saturating_sub(1)]);
        let client = self.client(random);
        Call::count_list(way, client, room, items)
    }

    /// A resolve with requested protocols: some towers of the list and others, into a buffer near the length of what is written.
    fn filtered_resolve(&self, random: &mut Random, e: &Entries) -> Call {
        let oxid = self.oxid(random);
        let mut protocols: Vec<u16> = Vec::new();
        for tower in [7, 8, 0x1F, 0xFFFF, 0, 9, 0x61] {
            if !random.once_in(3) {
                protocols.push(tower);
            }
        }
        if random.once_in(200) {
            let n = random.pick(&[65_535, 65_536]);
            protocols.resize(n, random.pick(&[7, 9]));
        }
        let listed = e.exporters.iter().find(|x| x.oxid == oxid);
        let length = listed.map_or(8, |x| filtered_list(&x.list, &protocols).len());
        let room = random.pick(&[0, length.saturating_sub(1), length, length + 1, 2100]);
        Call::ResolveFiltered {
            oxid,
            protocols,
            room,
        }
    }

    /// Bytes to load: the snapshot of these entries, often with one thing changed, or with bytes damaged.
    pub fn snapshot(&self, random: &mut Random, e: &Entries) -> Vec<u8> {
        let mut e = sorted(e);
        if random.once_in(2) {
            alter(random, &mut e);
        }
        let mut bytes = sections(&e);
        if random.once_in(3) {
            damage(random, &mut bytes);
        }
        bytes
    }

    /// Two adds or releases on different IPIDs, mostly releases of all that two interfaces of one object have left.
    pub fn pair(&self, random: &mut Random, e: &Entries) -> Option<(Call, Call)> {
        let other = |a: Guid, random: &mut Random| {
            let owner = e.interfaces.iter().find(|i| i.ipid == a)?.object;
            let of_it = e.interfaces.iter().filter(|i| i.object == owner);
            let beside: Vec<Guid> = of_it.map(|i| i.ipid).filter(|g| *g != a).collect();
            (!beside.is_empty()).then(|| random.pick(&beside))
        };
        let a = match e.interfaces.len() {
            0 => self.guid(random),
            n => e.interfaces[random.below(n)].ipid,
        };
        let b = other(a, random).unwrap_or_else(|| self.guid(random));
        let count = |random: &mut Random| random.pick(&[0, 1, 2, u32::MAX, u32::MAX]);
        let call = |ipid: Guid, random: &mut Random| {
            let client = self.client(random);
            let (public, private) = (count(random), count(random));
            let way = if random.once_in(4) {
                Way::Add
            } else {
                Way::Release
            };
            Call::count(way, client, ipid, public, private)
        };
        (a != b).then(|| (call(a, random), call(b, random)))
    }

    /// Mostly one of three clients; now and then another, or none.
    fn client(&self, random: &mut Random) -> u32 {
        if random.once_in(30) {
            return random.pick(&[8, 9, 256, 1 << 31, u32::MAX]);
        }
        random.pick(&[0, 0, 1, 1, 7, 7, 2, 3, 4, 5, 6])
    }

    fn oids(&self, random: &mut Random, live: &[u64]) -> Vec<u64> {
        if random.once_in(4000) {
            let id = self.oid(random);
            return vec![live.first().copied().unwrap_or(id); random.pick(&[65_535, 65_536])];
        }
        let n = random.pick(&[0, 1, 1, 2, 3, 5]);
        (0..n)
            .map(|_| {
                if live.is_empty() || random.once_in(25) {
                    self.oid(random)
                } else {
                    random.pick(live)
                }
            })
            .collect()
    }

    fn set(&self, random: &mut Random, e: &Entries) -> u64 {
        if e.sets.is_empty() || random.once_in(8) {
            return random.pick(&[0, 1, e.next_set, e.next_set.wrapping_sub(1), u64::MAX]);
        }
        e.sets[random.below(e.sets.len())].number
    }

    /// A call on a table with these entries.
    fn call(&self, random: &mut Random, e: &Entries) -> Step {
        if random.once_in(80) {
            let call = self.plain_call(random, e);
            let (words, store) = random.pick(&[
                (0, LENGTH),
                (1, LENGTH),
                (LENGTH - 1, LENGTH),
                (LENGTH + 1, LENGTH),
                (LENGTH, 0),
                (LENGTH, LENGTH - 1),
                (LENGTH, LENGTH + 1),
                (0, 0),
            ]);
            return Step::Lent { words, store, call };
        }
        Step::Call(self.plain_call(random, e))
    }

    /// In a run over many identifiers: what is not full yet is filled, a step at a time.
    fn filling_call(&self, random: &mut Random, e: &Entries) -> Option<Call> {
        if self.calm < 60 || random.once_in(3) {
            return None;
        }
        let free = |random: &mut Random, draw: &dyn Fn(&mut Random) -> u64, live: &[u64]| {
            (0..20).map(|_| draw(random)).find(|id| !live.contains(id))
        };
        let free_ipid = |random: &mut Random| {
            let taken = |g: &Guid| e.interfaces.iter().any(|i| i.ipid == *g);
            (0..20).map(|_| self.guid(random)).find(|g| !taken(g))
        };
        let oxids: Vec<u64> = e.exporters.iter().map(|x| x.oxid).collect();
        let oids: Vec<u64> = e.objects.iter().map(|o| o.oid).collect();
        if oxids.len() < EXPORTERS {
            return Some(Call::EnterExporter {
                oxid: free(random, &|r| self.oxid(r), &oxids)?,
                unknown: free_ipid(random)?,
                list: self.exporter_list(random, e),
            });
        }
        if oids.len() < OBJECTS {
            return Some(Call::EnterObject {
                oid: free(random, &|r| self.oid(r), &oids)?,
                oxid: random.pick(&oxids),
                ipid: free_ipid(random)?,
                iid: self.guid(random),
                public: 1 + random.below(3) as u32,
                no_ping: random.once_in(3),
            });
        }
        if e.interfaces.len() < INTERFACES {
            return Some(Call::EnterInterface {
                oid: random.pick(&oids),
                ipid: free_ipid(random)?,
                iid: self.guid(random),
                public: 1 + random.below(3) as u32,
            });
        }
        (e.sets.len() < SETS).then(|| Call::ComplexPing {
            set: 0,
            sequence: random.word() as u16,
            adds: (0..20).map(|_| random.pick(&oids)).collect(),
            deletes: vec![],
        })
    }

    pub fn plain_call(&self, random: &mut Random, e: &Entries) -> Call {
        if let Some(call) = self.filling_call(random, e) {
            return call;
        }
        match random.below(100) {
            n @ 0..=39 => self.entering_call(random, e, n),
            n @ 40..=60 => self.counting_call(random, e, n),
            61..=77 => self.complex_ping(random, e),
            78..=85 => Call::Clock {
                time: self.time(random, e.clock),
            },
            n => self.looking_call(random, e, n),
        }
    }

    /// What enters, and the removal of an exporter: of 40.
    fn entering_call(&self, random: &mut Random, e: &Entries, n: usize) -> Call {
        match n {
            0..=9 => Call::EnterExporter {
                oxid: self.oxid(random),
                unknown: self.guid(random),
                list: self.exporter_list(random, e),
            },
            10 if random.once_in(self.calm) => Call::RemoveExporter {
                oxid: self.oxid(random),
            },
            10..=27 => Call::EnterObject {
                oid: self.oid(random),
                oxid: self.oxid(random),
                ipid: self.guid(random),
                iid: self.guid(random),
                public: random.pick(&COUNTS),
                no_ping: random.once_in(3),
            },
            _ => Call::EnterInterface {
                oid: self.oid(random),
                ipid: self.guid(random),
                iid: self.guid(random),
                public: random.pick(&COUNTS),
            },
        }
    }

    /// What counts references, and simple pings: from 40 to 60.
    fn counting_call(&self, random: &mut Random, e: &Entries, n: usize) -> Call {
        let one = |way: Way, random: &mut Random| {
            let (client, ipid) = (self.client(random), self.guid(random));
            Call::count(
                way,
                client,
                ipid,
                random.pick(&COUNTS),
                random.pick(&COUNTS),
            )
        };
        match n {
            40..=45 => one(Way::Add, random),
            46 | 47 => self.count_list(random),
            48..=57 if random.once_in(1 + self.calm / 4) => one(Way::Release, random),
            58 if random.once_in(self.calm) => Call::DropClient {
                client: self.client(random),
            },
            _ => Call::SimplePing {
                set: self.set(random, e),
            },
        }
    }

    fn complex_ping(&self, random: &mut Random, e: &Entries) -> Call {
        let set = if random.once_in(4) {
            0
        } else {
            self.set(random, e)
        };
        let last = e.sets.iter().find(|s| s.number == set);
        let last = last.map_or(0, |s| s.sequence);
        let step = random.pick(&[1, 1, 1, 1, 2, 0, 32_767, 32_768, 65_535, 40_000]);
        let live: Vec<u64> = e.objects.iter().map(|o| o.oid).collect();
        Call::ComplexPing {
            set,
            sequence: last.wrapping_add(step),
            adds: self.oids(random, &live),
            deletes: self.oids(random, &live),
        }
    }

    /// What looks, and now and then a reset or a load: from 86.
    fn looking_call(&self, random: &mut Random, e: &Entries, n: usize) -> Call {
        match n {
            86..=87 => {
                let oxid = self.oxid(random);
                let listed = e.exporters.iter().find(|x| x.oxid == oxid);
                let length = listed.map_or(8, |x| x.list.len());
                let room = random.pick(&[0, length - 1, length, length + 1, 2100]);
                Call::Resolve { oxid, room }
            }
            88 | 89 => self.filtered_resolve(random, e),
            90 => {
                let length = sections(e).len();
                let room = random.pick(&[0, 26, length - 1, length, length + 1, 65_000]);
                Call::WriteSnapshot { room }
            }
            91..=92 => Call::Census {},
            93..=94 => Call::Members {
                set: self.set(random, e),
            },
            95..=98 => {
                let oxid = self.oxid(random);
                let mut reference = reference(random, oxid);
                if random.once_in(5) {
                    damage(random, &mut reference);
                }
                Call::NextStop { reference }
            }
            _ if random.once_in(10 * self.calm) => Call::Reset {
                time: random.pick(&[0, 1000, u64::MAX - 2000, e.clock / 2]),
            },
            _ if random.once_in(3) => Call::LoadSnapshot {
                snapshot: self.snapshot(random, e),
            },
            _ => Call::Census {},
        }
    }

    fn time(&self, random: &mut Random, clock: u64) -> u64 {
        if random.once_in(12) {
            return clock.saturating_sub(1 + random.below(400) as u64);
        }
        let steps = [0, 1, 5, 30, 90, 119, 120, 121, 200, 359, 360, 361];
        let step = if random.once_in(self.calm) {
            random.pick(&steps)
        } else {
            random.pick(&steps[..3])
        };
        clock.saturating_add(step)
    }

    /// The next steps of a run: a call; or words and bytes changed behind it, some calls, and the changes undone.
    pub fn steps(
        &self,
        random: &mut Random,
        e: &Entries,
        words: &[u64],
        store: &[u8],
    ) -> Vec<Step> {
        if random.once_in(4000) && e.sets.iter().all(|s| s.number < u64::MAX - 3) {
            let value = u64::MAX - random.below(4) as u64;
            return vec![Step::PokeWord { at: 1, value }];
        }
        if !self.pokes || !random.once_in(3) {
            return vec![self.call(random, e)];
        }
        let mut steps: Vec<Step> = Vec::new();
        let mut undo: Vec<Step> = Vec::new();
        for _ in 0..random.pick(&[1, 1, 1, 2, 3]) {
            let poke = self.poke(random, e, words, store);
            match poke {
                Step::PokeWord { at, .. } => undo.push(Step::PokeWord {
                    at,
                    value: words[at],
                }),
                Step::PokeByte { at, .. } => undo.push(Step::PokeByte {
                    at,
                    value: store[at],
                }),
                _ => {}
            }
            steps.push(poke);
        }
        for _ in 0..random.pick(&[1, 1, 2]) {
            // of the calls, mostly those that look and change nothing, so that undoing gives the table before
            let call = match random.below(4) {
                0 => self.plain_call(random, e),
                1 => Call::Clock { time: e.clock },
                2 => Call::Members {
                    set: self.set(random, e),
                },
                _ => Call::Census {},
            };
            steps.push(Step::Call(call));
        }
        undo.reverse();
        steps.extend(undo);
        steps
    }

    fn poke(&self, random: &mut Random, e: &Entries, words: &[u64], store: &[u8]) -> Step {
        if random.once_in(8) {
            // of a list, or of the free bytes behind the last one
            let from = decode::list_start(store, random.below(e.exporters.len() + 1));
            let within = 4 + random.below(64);
            let at = from + random.pick(&[0, 1, 2, 3, within, within]);
            let at = at.min(store.len() - 1);
            let value = random.pick(&[0, 1, store[at] ^ 1, store[at].wrapping_add(1), 0xFF]);
            return Step::PokeByte { at, value };
        }
        let columns = decode::columns();
        let column = &columns[random.below(columns.len())];
        let (first, rows) = (column.first, column.live(words));
        let at = first + random.below(rows.max(1));
        let beside = words[first + random.below(rows.max(1))];
        let flipped = words[at] ^ 1 << random.below(64);
        let small = random.below(300) as u64;
        let value = random.pick(&[
            0,
            1,
            flipped,
            words[at].wrapping_add(1),
            words[at].wrapping_sub(1),
            beside,
            e.clock,
            e.clock.wrapping_add(1),
            e.clock.wrapping_sub(359),
            e.clock.wrapping_sub(360),
            1 << 32,
            small,
            u64::MAX,
        ]);
        Step::PokeWord { at, value }
    }
}
