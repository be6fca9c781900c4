//! The table's calls, each judged, and then its step, which a replay takes alone. The live rows of a kind are its first ones; a removed
//! row is closed up.

use crate::bytes::{judge_list, read_reference, stated_length, write_filtered};
use crate::judge::{judged, Index};
use crate::Guid;
use std::ops::Range;

pub const WORDS: usize = 8192;
pub const BYTES: usize = 8192;
pub const LONGEST_LIST: usize = 2048;
pub(crate) const TIMEOUT: u64 = 360;
const CLIENTS: usize = 8;
pub(crate) const ITEM: usize = 24;

pub(crate) const CLOCK: usize = 0;
pub(crate) const NEXT_SET: usize = 1;

/// Rows of a kind: where their count and their columns stand.
pub(crate) struct Kind {
    count: usize,
    base: usize,
    pub(crate) places: usize,
    pub(crate) width: usize,
}

pub(crate) const EXPORTERS: Kind = Kind {
    count: 2,
    base: 16,
    places: 16,
    width: 3,
};
pub(crate) const OBJECTS: Kind = Kind {
    count: 3,
    base: 256,
    places: 128,
    width: 4,
};
pub(crate) const INTERFACES: Kind = Kind {
    count: 4,
    base: 768,
    places: 256,
    width: 6 + CLIENTS,
};
pub(crate) const SETS: Kind = Kind {
    count: 5,
    base: 64,
    places: 32,
    width: 5,
};

// the first column of exporters, objects and sets: their identifier
pub(crate) const ID: usize = 0;
// columns of exporters
pub(crate) const UNKNOWN_LOW: usize = 1;
pub(crate) const UNKNOWN_HIGH: usize = 2;
// columns of objects
pub(crate) const EXPORTER: usize = 1;
pub(crate) const NO_PING: usize = 2;
pub(crate) const HEARD: usize = 3;
// columns of interfaces
pub(crate) const IPID_LOW: usize = 0;
pub(crate) const IPID_HIGH: usize = 1;
pub(crate) const IID_LOW: usize = 2;
pub(crate) const IID_HIGH: usize = 3;
pub(crate) const OBJECT: usize = 4;
pub(crate) const PUBLIC: usize = 5;
const PRIVATE: usize = 6; // of client 0, then those of the others
pub(crate) const COUNT_COLUMNS: Range<usize> = PUBLIC..PRIVATE + CLIENTS;
// columns of sets
pub(crate) const SEQUENCE: usize = 1;
pub(crate) const PINGED: usize = 2;
const MEMBERS_LOW: usize = 3;
const MEMBERS_HIGH: usize = 4;

impl Kind {
    pub(crate) fn live(&self, words: &[u64]) -> usize {
        (words[self.count] as usize).min(self.places)
    }

    pub(crate) fn at(&self, column: usize, row: usize) -> usize {
        self.base + column * self.places + row
    }

    /// The live words of a column.
    pub(crate) fn column<'a>(&self, words: &'a [u64], column: usize) -> &'a [u64] {
        &words[self.at(column, 0)..self.at(column, self.live(words))]
    }

    /// The live row whose first column is this id.
    fn find(&self, words: &[u64], id: u64) -> Option<usize> {
        self.column(words, ID).iter().position(|&x| x == id)
    }

    pub(crate) fn push(&self, words: &mut [u64], row: &[u64]) {
        let n = self.live(words);
        for (column, &x) in row.iter().enumerate() {
            words[self.at(column, n)] = x;
        }
        words[self.count] = n as u64 + 1;
    }

    fn remove(&self, words: &mut [u64], row: usize) {
        let n = self.live(words);
        for column in 0..self.width {
            let from = self.at(column, row + 1)..self.at(column, n);
            words.copy_within(from, self.at(column, row));
        }
        words[self.count] = n as u64 - 1;
    }
}

#[derive(Clone, Copy, Debug, Default, PartialEq, Eq)]
pub struct Counts {
    pub exporters: usize,
    pub objects: usize,
    pub interfaces: usize,
    pub sets: usize,
}

#[derive(Clone, Copy, Debug, PartialEq, Eq)]
pub struct Released {
    pub public: u32,
    pub private: u32,
    pub interface_went: bool,
    pub object_went: bool,
}

/// Where a next stop stands: in the store or in the reference.
#[derive(Clone, Debug, PartialEq, Eq)]
pub enum Stop {
    Store(Range<usize>),
    Reference(Range<usize>),
}

/// Where the list of a row begins: the lists stand end to end, each as long as its own N says.
fn list_start(store: &[u8], row: usize) -> usize {
    (0..row).fold(0, |at, _| at + stated_length(&store[at..]))
}

pub(crate) fn list_of(store: &[u8], row: usize) -> &[u8] {
    let rest = &store[list_start(store, row)..];
    &rest[..stated_length(rest)]
}

pub(crate) fn members(words: &[u64], set: usize) -> u128 {
    let low = words[SETS.at(MEMBERS_LOW, set)];
    let high = words[SETS.at(MEMBERS_HIGH, set)];
    low as u128 | (high as u128) << 64
}

pub(crate) fn put_members(words: &mut [u64], set: usize, bits: u128) {
    words[SETS.at(MEMBERS_LOW, set)] = bits as u64;
    words[SETS.at(MEMBERS_HIGH, set)] = (bits >> 64) as u64;
}

/// Whether a reference to the interface is held; the public count is looked at first.
pub(crate) fn is_held(words: &[u64], row: usize) -> bool {
    COUNT_COLUMNS
        .into_iter()
        .any(|column| words[INTERFACES.at(column, row)] as u32 != 0)
}

pub fn reset(words: &mut [u64], store: &[u8], time: u64) -> Result<(), u32> {
    if words.len() != WORDS || store.len() != BYTES {
        return Err(1);
    }
    words[CLOCK] = time;
    words[NEXT_SET] = 1;
    for kind in [EXPORTERS, OBJECTS, INTERFACES, SETS] {
        words[kind.count] = 0;
    }
    Ok(())
}

fn find_ipid(words: &[u64], ipid: Guid) -> Option<usize> {
    let lows = INTERFACES.column(words, IPID_LOW);
    let highs = INTERFACES.column(words, IPID_HIGH);
    (0..lows.len()).find(|&i| lows[i] == ipid.low && highs[i] == ipid.high)
}

/// Whether an IPID can't be entered: it is nil, or a remote-unknown or interface IPID already.
fn ipid_taken(words: &[u64], ipid: Guid) -> bool {
    let lows = EXPORTERS.column(words, UNKNOWN_LOW);
    let highs = EXPORTERS.column(words, UNKNOWN_HIGH);
    ipid == Guid::default()
        || (0..lows.len()).any(|i| lows[i] == ipid.low && highs[i] == ipid.high)
        || find_ipid(words, ipid).is_some()
}

pub fn enter_exporter(
    words: &mut [u64],
    store: &mut [u8],
    oxid: u64,
    unknown: Guid,
    list: &[u8],
) -> Result<(), u32> {
    judged(words, store)?;
    exporter_entered(words, store, oxid, unknown, list)
}

pub(crate) fn exporter_entered(
    words: &mut [u64],
    store: &mut [u8],
    oxid: u64,
    unknown: Guid,
    list: &[u8],
) -> Result<(), u32> {
    if oxid == 0 || EXPORTERS.find(words, oxid).is_some() || ipid_taken(words, unknown) {
        return Err(3);
    }
    judge_list(list)?;
    if list.len() > LONGEST_LIST {
        return Err(19);
    }
    let n = EXPORTERS.live(words);
    let from = list_start(store, n);
    if n == EXPORTERS.places || from + list.len() > BYTES {
        return Err(9);
    }
    store[from..from + list.len()].copy_from_slice(list);
    EXPORTERS.push(words, &[oxid, unknown.low, unknown.high]);
    Ok(())
}

/// Removes the objects that do not stay, with their interfaces and memberships.
fn remove_objects(words: &mut [u64], stays: impl Fn(&[u64], usize) -> bool) {
    for row in (0..OBJECTS.live(words)).rev() {
        if !stays(words, row) {
            remove_object(words, row);
        }
    }
}

fn remove_object(words: &mut [u64], row: usize) {
    let oid = words[OBJECTS.at(ID, row)];
    OBJECTS.remove(words, row);
    for i in (0..INTERFACES.live(words)).rev() {
        if words[INTERFACES.at(OBJECT, i)] == oid {
            INTERFACES.remove(words, i);
        }
    }
    for s in 0..SETS.live(words) {
        let bits = members(words, s);
        let below = bits & ((1 << row) - 1);
        put_members(words, s, below | (bits >> row >> 1) << row);
    }
}

pub fn remove_exporter(words: &mut [u64], store: &mut [u8], oxid: u64) -> Result<(), u32> {
    judged(words, store)?;
    exporter_removed(words, store, oxid)
}

pub(crate) fn exporter_removed(words: &mut [u64], store: &mut [u8], oxid: u64) -> Result<(), u32> {
    let row = EXPORTERS.find(words, oxid).ok_or(4u32)?;
    remove_objects(words, |w, o| w[OBJECTS.at(EXPORTER, o)] != oxid);
    let end = list_start(store, EXPORTERS.live(words));
    let (to, from) = (list_start(store, row), list_start(store, row + 1));
    store.copy_within(from..end, to);
    EXPORTERS.remove(words, row);
    Ok(())
}

#[allow(clippy::too_many_arguments)]
pub fn enter_object(
    words: &mut [u64],
    store: &[u8],
    oid: u64,
    oxid: u64,
    ipid: Guid,
    iid: Guid,
    public: u32,
    no_ping: bool,
) -> Result<(), u32> {
    judged(words, store)?;
    object_entered(words, oid, oxid, ipid, iid, public, no_ping)
}

pub(crate) fn object_entered(
    words: &mut [u64],
    oid: u64,
    oxid: u64,
    ipid: Guid,
    iid: Guid,
    public: u32,
    no_ping: bool,
) -> Result<(), u32> {
    if oid == 0 || OBJECTS.find(words, oid).is_some() || ipid_taken(words, ipid) {
        return Err(3);
    }
    if EXPORTERS.find(words, oxid).is_none() {
        return Err(4);
    }
    if public == 0 {
        return Err(7);
    }
    if OBJECTS.live(words) == OBJECTS.places || INTERFACES.live(words) == INTERFACES.places {
        return Err(9);
    }
    let clock = words[CLOCK];
    OBJECTS.push(words, &[oid, oxid, no_ping as u64, clock]);
    push_interface(words, oid, ipid, iid, public);
    Ok(())
}

fn push_interface(words: &mut [u64], oid: u64, ipid: Guid, iid: Guid, public: u32) {
    let mut row = [0; INTERFACES.width];
    row[..6].copy_from_slice(&[ipid.low, ipid.high, iid.low, iid.high, oid, public as u64]);
    INTERFACES.push(words, &row);
}

pub fn enter_interface(
    words: &mut [u64],
    store: &[u8],
    oid: u64,
    ipid: Guid,
    iid: Guid,
    public: u32,
) -> Result<(), u32> {
    judged(words, store)?;
    interface_entered(words, oid, ipid, iid, public)
}

pub(crate) fn interface_entered(
    words: &mut [u64],
    oid: u64,
    ipid: Guid,
    iid: Guid,
    public: u32,
) -> Result<(), u32> {
    if ipid_taken(words, ipid) {
        return Err(3);
    }
    if OBJECTS.find(words, oid).is_none() {
        return Err(5);
    }
    if public == 0 {
        return Err(7);
    }
    if INTERFACES.live(words) == INTERFACES.places {
        return Err(9);
    }
    push_interface(words, oid, ipid, iid, public);
    Ok(())
}

/// The column of a client's private counts, or 20.
fn private_column(client: u32) -> Result<usize, u32> {
    if client < CLIENTS as u32 {
        Ok(PRIVATE + client as usize)
    } else {
        Err(20)
    }
}

pub fn add(
    words: &mut [u64],
    store: &[u8],
    client: u32,
    ipid: Guid,
    public: u32,
    private: u32,
) -> Result<(), u32> {
    let index = judged(words, store)?;
    added(words, &index, client, ipid, public, private)
}

pub(crate) fn added(
    words: &mut [u64],
    index: &Index,
    client: u32,
    ipid: Guid,
    public: u32,
    private: u32,
) -> Result<(), u32> {
    let column = private_column(client)?;
    add_counts(words, index, column, ipid, public, private)
}

fn add_counts(
    words: &mut [u64],
    index: &Index,
    column: usize,
    ipid: Guid,
    public: u32,
    private: u32,
) -> Result<(), u32> {
    let row = index.ipid(words, ipid).ok_or(6u32)?;
    let (p, q) = (INTERFACES.at(PUBLIC, row), INTERFACES.at(column, row));
    let more_public = (words[p] as u32).checked_add(public).ok_or(8u32)?;
    let more_private = (words[q] as u32).checked_add(private).ok_or(8u32)?;
    words[p] = more_public as u64;
    words[q] = more_private as u64;
    Ok(())
}

pub fn release(
    words: &mut [u64],
    store: &[u8],
    client: u32,
    ipid: Guid,
    public: u32,
    private: u32,
) -> Result<Released, u32> {
    let index = judged(words, store)?;
    released(words, &index, client, ipid, public, private)
}

pub(crate) fn released(
    words: &mut [u64],
    index: &Index,
    client: u32,
    ipid: Guid,
    public: u32,
    private: u32,
) -> Result<Released, u32> {
    let column = private_column(client)?;
    take_counts(words, index, column, ipid, public, private)
}

fn take_counts(
    words: &mut [u64],
    index: &Index,
    column: usize,
    ipid: Guid,
    public: u32,
    private: u32,
) -> Result<Released, u32> {
    let row = index.ipid(words, ipid).ok_or(6u32)?;
    let (p, q) = (INTERFACES.at(PUBLIC, row), INTERFACES.at(column, row));
    let public = public.min(words[p] as u32);
    let private = private.min(words[q] as u32);
    words[p] = (words[p] as u32 - public) as u64;
    words[q] = (words[q] as u32 - private) as u64;
    let interface_went = !is_held(words, row);
    let object_went = interface_went && remove_interface(words, row);
    Ok(Released {
        public,
        private,
        interface_went,
        object_went,
    })
}

/// Adds, or gives back, by a list of items of 24 bytes; the table is judged once.
pub fn count_list(
    words: &mut [u64],
    store: &[u8],
    back: bool,
    client: u32,
    items: &[u8],
    results: &mut [u8],
) -> Result<(), u32> {
    let mut index = judged(words, store)?;
    list_counted(words, &mut index, back, client, items, results).map(|_| ())
}

/// The same; answers what was added or taken in all.
pub(crate) fn list_counted(
    words: &mut [u64],
    index: &mut Index,
    back: bool,
    client: u32,
    items: &[u8],
    results: &mut [u8],
) -> Result<u64, u32> {
    let column = private_column(client)?;
    if !items.len().is_multiple_of(ITEM) {
        return Err(13);
    }
    if items.len() / ITEM > 65_535 {
        return Err(10);
    }
    if results.len() < items.len() / ITEM {
        return Err(15);
    }
    let mut moved = 0;
    for (item, result) in items.chunks_exact(ITEM).zip(results) {
        let half = |at: usize| u64::from_le_bytes(item[at..at + 8].try_into().unwrap());
        let count = |at: usize| u32::from_le_bytes(item[at..at + 4].try_into().unwrap());
        let (low, high, public, private) = (half(0), half(8), count(16), count(20));
        let ipid = Guid { low, high };
        let done = if back {
            take_counts(words, index, column, ipid, public, private).map(|r| {
                if r.interface_went {
                    index.again(words);
                }
                r.public as u64 + r.private as u64
            })
        } else {
            add_counts(words, index, column, ipid, public, private)
                .map(|()| public as u64 + private as u64)
        };
        moved += done.unwrap_or(0);
        *result = done.err().unwrap_or(0) as u8;
    }
    Ok(moved)
}

/// Removes an interface, and its object where that has no other; whether the object went.
fn remove_interface(words: &mut [u64], row: usize) -> bool {
    let object = words[INTERFACES.at(OBJECT, row)];
    INTERFACES.remove(words, row);
    let went = !INTERFACES.column(words, OBJECT).contains(&object);
    if went {
        if let Some(row) = OBJECTS.find(words, object) {
            remove_object(words, row);
        }
    }
    went
}

pub fn drop_client(words: &mut [u64], store: &[u8], client: u32) -> Result<(), u32> {
    judged(words, store)?;
    client_dropped(words, client)
}

pub(crate) fn client_dropped(words: &mut [u64], client: u32) -> Result<(), u32> {
    let column = private_column(client)?;
    for row in (0..INTERFACES.live(words)).rev() {
        words[INTERFACES.at(column, row)] = 0;
        if !is_held(words, row) {
            remove_interface(words, row);
        }
    }
    Ok(())
}

fn ping(words: &mut [u64], set: usize) {
    let clock = words[CLOCK];
    words[SETS.at(PINGED, set)] = clock;
    let mut bits = members(words, set);
    while bits != 0 {
        words[OBJECTS.at(HEARD, bits.trailing_zeros() as usize)] = clock;
        bits &= bits - 1;
    }
}

pub fn simple_ping(words: &mut [u64], store: &[u8], set: u64) -> Result<(), u32> {
    judged(words, store)?;
    set_pinged(words, set)
}

pub(crate) fn set_pinged(words: &mut [u64], set: u64) -> Result<(), u32> {
    let row = SETS.find(words, set).ok_or(11u32)?;
    ping(words, row);
    Ok(())
}

pub fn complex_ping(
    words: &mut [u64],
    store: &[u8],
    set: u64,
    sequence: u16,
    adds: &[u64],
    deletes: &[u64],
) -> Result<u64, u32> {
    let index = judged(words, store)?;
    set_changed(words, &index, set, sequence, adds, deletes)
}

pub(crate) fn set_changed(
    words: &mut [u64],
    index: &Index,
    set: u64,
    sequence: u16,
    adds: &[u64],
    deletes: &[u64],
) -> Result<u64, u32> {
    if adds.len() > 65_535 || deletes.len() > 65_535 {
        return Err(10);
    }
    let old = match set {
        0 => None,
        _ => Some(SETS.find(words, set).ok_or(11u32)?),
    };
    if let Some(row) = old {
        let step = sequence.wrapping_sub(words[SETS.at(SEQUENCE, row)] as u16);
        if step == 0 || step > 32_767 {
            return Err(12);
        }
    }
    let mut added: u128 = 0;
    for &id in adds {
        added |= 1 << index.oid(words, id).ok_or(5u32)?;
    }
    let row = match old {
        Some(row) => row,
        None => {
            if SETS.live(words) == SETS.places {
                return Err(9);
            }
            if words[NEXT_SET] == u64::MAX {
                return Err(18);
            }
            let number = words[NEXT_SET];
            words[NEXT_SET] += 1;
            SETS.push(words, &[number, 0, 0, 0, 0]);
            SETS.live(words) - 1
        }
    };
    let mut bits = members(words, row) | added;
    for &id in deletes {
        if let Some(o) = index.oid(words, id) {
            bits &= !(1 << o);
        }
    }
    put_members(words, row, bits);
    words[SETS.at(SEQUENCE, row)] = sequence as u64;
    ping(words, row);
    Ok(words[SETS.at(ID, row)])
}

pub fn clock(words: &mut [u64], store: &[u8], time: u64) -> Result<Counts, u32> {
    judged(words, store)?;
    clock_put(words, time)
}

pub(crate) fn clock_put(words: &mut [u64], time: u64) -> Result<Counts, u32> {
    if time < words[CLOCK] {
        return Err(2);
    }
    let before = counts(words);
    words[CLOCK] = time;
    for row in (0..SETS.live(words)).rev() {
        if time - words[SETS.at(PINGED, row)] >= TIMEOUT {
            SETS.remove(words, row);
        }
    }
    remove_objects(words, |w, o| {
        w[OBJECTS.at(NO_PING, o)] != 0 || time - w[OBJECTS.at(HEARD, o)] < TIMEOUT
    });
    let after = counts(words);
    Ok(Counts {
        exporters: 0,
        objects: before.objects - after.objects,
        interfaces: before.interfaces - after.interfaces,
        sets: before.sets - after.sets,
    })
}

fn unknown(words: &[u64], row: usize) -> Guid {
    Guid {
        low: words[EXPORTERS.at(UNKNOWN_LOW, row)],
        high: words[EXPORTERS.at(UNKNOWN_HIGH, row)],
    }
}

/// Writes an exporter's list; answers its length and the remote-unknown IPID.
pub fn resolve(
    words: &[u64],
    store: &[u8],
    oxid: u64,
    buffer: &mut [u8],
) -> Result<(usize, Guid), u32> {
    judged(words, store)?;
    resolved(words, store, oxid, buffer)
}

pub(crate) fn resolved(
    words: &[u64],
    store: &[u8],
    oxid: u64,
    buffer: &mut [u8],
) -> Result<(usize, Guid), u32> {
    let row = EXPORTERS.find(words, oxid).ok_or(4u32)?;
    let list = list_of(store, row);
    if buffer.len() < list.len() {
        return Err(15);
    }
    buffer[..list.len()].copy_from_slice(list);
    Ok((list.len(), unknown(words, row)))
}

/// The same with only the string bindings of the requested protocols.
pub fn resolve_filtered(
    words: &[u64],
    store: &[u8],
    oxid: u64,
    protocols: &[u16],
    buffer: &mut [u8],
) -> Result<(usize, Guid), u32> {
    judged(words, store)?;
    resolved_filtered(words, store, oxid, protocols, buffer)
}

pub(crate) fn resolved_filtered(
    words: &[u64],
    store: &[u8],
    oxid: u64,
    protocols: &[u16],
    buffer: &mut [u8],
) -> Result<(usize, Guid), u32> {
    if protocols.len() > 65_535 {
        return Err(10);
    }
    let row = EXPORTERS.find(words, oxid).ok_or(4u32)?;
    let length = write_filtered(list_of(store, row), protocols, buffer)?;
    Ok((length, unknown(words, row)))
}

pub(crate) fn counts(words: &[u64]) -> Counts {
    Counts {
        exporters: EXPORTERS.live(words),
        objects: OBJECTS.live(words),
        interfaces: INTERFACES.live(words),
        sets: SETS.live(words),
    }
}

pub fn census(words: &[u64], store: &[u8]) -> Result<Counts, u32> {
    judged(words, store)?;
    Ok(counts(words))
}

pub fn member_count(words: &[u64], store: &[u8], set: u64) -> Result<usize, u32> {
    judged(words, store)?;
    members_counted(words, set)
}

pub(crate) fn members_counted(words: &[u64], set: u64) -> Result<usize, u32> {
    let row = SETS.find(words, set).ok_or(11u32)?;
    Ok(members(words, row).count_ones() as usize)
}

pub fn next_stop(words: &[u64], store: &[u8], reference: &[u8]) -> Result<Stop, u32> {
    judged(words, store)?;
    stop_found(words, store, reference)
}

pub(crate) fn stop_found(words: &[u64], store: &[u8], reference: &[u8]) -> Result<Stop, u32> {
    let (r, tail) = read_reference(reference)?;
    if r.flags == 4 {
        return Err(14);
    }
    Ok(match EXPORTERS.find(words, r.oxid) {
        Some(row) => {
            let from = list_start(store, row);
            Stop::Store(from..from + list_of(store, row).len())
        }
        None => Stop::Reference(tail),
    })
}
