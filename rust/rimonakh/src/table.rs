//! The table of exporters, objects, interfaces and ping sets, and the calls on it.

use crate::error::answered;
use crate::limits::{BYTES, LONGEST_SNAPSHOT, WORDS};
use crate::{Guid, Oid, Outcome, Oxid, Result, SetId, Snapshot};
use alloc::boxed::Box;
use alloc::vec;
use alloc::vec::Vec;
use core::{array, fmt};

/// Numbers of each kind: of live entries, or of those that went.
#[repr(C)]
#[derive(Clone, Copy, Debug, Default, PartialEq, Eq)]
pub struct Counts {
    /// Exporters.
    pub exporters: usize,
    /// Objects.
    pub objects: usize,
    /// Interfaces.
    pub interfaces: usize,
    /// Ping sets.
    pub sets: usize,
}

/// What a release took, and whether the interface and its object went.
#[derive(Clone, Copy, Debug, PartialEq, Eq)]
pub struct Released {
    /// Public references that were taken.
    pub public: u32,
    /// Private references of the client that were taken.
    pub private: u32,
    /// Whether the interface went.
    pub interface_went: bool,
    /// Whether its object went.
    pub object_went: bool,
}

/// An item of a list of adds or releases (REMINTERFACEREF): an interface, and public and private references.
#[derive(Clone, Copy, Debug, PartialEq, Eq)]
pub struct Item {
    /// The interface.
    pub ipid: Guid,
    /// Public references.
    pub public: u32,
    /// Private references.
    pub private: u32,
}

impl Item {
    /// The length of an item, in bytes.
    pub const SIZE: usize = 24;

    /// The item as it stands in a list.
    pub fn to_bytes(self) -> [u8; Item::SIZE] {
        let mut bytes = [0; Item::SIZE];
        bytes[..16].copy_from_slice(&self.ipid.0);
        bytes[16..20].copy_from_slice(&self.public.to_le_bytes());
        bytes[20..].copy_from_slice(&self.private.to_le_bytes());
        bytes
    }

    /// The items of a list, from its bytes; a part of an item at the end, for which the list is refused, is left out.
    ///
    /// ```
    /// use rimonakh::{Guid, Item};
    ///
    /// let item = Item { ipid: Guid([2; 16]), public: 5, private: 0 };
    /// assert!(Item::all(&[item.to_bytes(); 3].concat()).eq([item; 3]));
    /// ```
    pub fn all(list: &[u8]) -> impl ExactSizeIterator<Item = Item> + '_ {
        let count = |item: &[u8], at| u32::from_le_bytes(array::from_fn(|k| item[at + k]));
        list.chunks_exact(Item::SIZE).map(move |item| Item {
            ipid: Guid(array::from_fn(|k| item[k])),
            public: count(item, 16),
            private: count(item, 20),
        })
    }
}

/// The number of the set that was pinged, and the backoff factor.
#[repr(C)]
#[derive(Clone, Copy, Debug, PartialEq, Eq)]
pub struct Pinged {
    /// The set, which is a new one where set 0 was pinged.
    pub set: SetId,
    /// The backoff factor, always 0.
    pub backoff: u16,
}

/// The length of the list that was written, and the exporter's remote-unknown IPID.
#[repr(C)]
#[derive(Clone, Copy, Debug, PartialEq, Eq)]
pub struct Resolved {
    /// The length of the list, in bytes.
    pub length: usize,
    /// The exporter's remote-unknown IPID.
    pub unknown: Guid,
}

/// Where to go next with a reference.
#[derive(Clone, Copy, Debug, PartialEq, Eq)]
pub enum Stop<'a> {
    /// The list of the reference's exporter, which is live.
    Exporter(&'a [u8]),
    /// The reference's own list.
    Own(&'a [u8]),
}

/// The clock of a snapshot that a table has loaded or written: its bytes 2 to 9.
pub fn snapshot_clock(snapshot: &[u8]) -> u64 {
    u64::from_le_bytes(snapshot[2..10].try_into().expect("eight bytes"))
}

/// An array of words and a store of bytes. It owns both, unless made by [`Table::over`] memory that is lent; what is lent to be read
/// only has the calls that look. Every call judges them first; a wrong length or a table that is not sound is
/// [`Error::Unsound`](crate::Error::Unsound).
///
/// ```
/// use rimonakh::{Counts, Table};
///
/// let mut memory = Table::new(1000).into_parts(); // 8,192 words and 8,192 bytes
/// Table::over(&mut memory.0, &mut memory.1).clock(1120)?;
/// let seen: Table<&[u64], &[u8]> = Table::over(&memory.0, &memory.1);
/// assert_eq!(seen.census()?, Counts::default());
/// # Ok::<(), rimonakh::Error>(())
/// ```
#[derive(Clone)]
pub struct Table<W = Box<[u64]>, S = Box<[u8]>> {
    words: W,
    store: S,
}

impl Table {
    /// An empty table.
    pub fn new(time: u64) -> Table {
        let mut table = Table::over(
            vec![0; WORDS].into_boxed_slice(),
            vec![0; BYTES].into_boxed_slice(),
        );
        table.reset(time).expect("both lengths are right");
        table
    }
}

impl<W, S> Table<W, S> {
    /// The table that these words and bytes hold.
    pub fn over(words: W, store: S) -> Table<W, S> {
        Table { words, store }
    }

    /// Its words and bytes.
    pub fn into_parts(self) -> (W, S) {
        (self.words, self.store)
    }
}

/// Shows the entries, by a [`Snapshot`]; of memory that holds no sound table the refusal. It takes the stack of a load, 150 KiB.
///
/// ```
/// use rimonakh::Table;
///
/// assert_eq!(
///     format!("{:?}", Table::new(7)),
///     "Table(Snapshot { clock: 7, next_set: SetId(0x1), exporters: [], objects: [], interfaces: [], sets: [] })"
/// );
/// assert_eq!(format!("{:?}", Table::over([0; 8192], [0; 8192])), "Table(Unsound)");
/// ```
impl<W, S> fmt::Debug for Table<W, S>
where
    W: AsRef<[u64]>,
    S: AsRef<[u8]>,
{
    fn fmt(&self, f: &mut fmt::Formatter<'_>) -> fmt::Result {
        let mut shown = f.debug_tuple("Table");
        match self.snapshot().and_then(|bytes| Snapshot::read(&bytes)) {
            Ok(entries) => shown.field(&entries).finish(),
            Err(refusal) => shown.field(&refusal).finish(),
        }
    }
}

/// The calls that look.
impl<W, S> Table<W, S>
where
    W: AsRef<[u64]>,
    S: AsRef<[u8]>,
{
    /// Its array of words.
    pub fn words(&self) -> &[u64] {
        self.words.as_ref()
    }

    /// Its store of bytes.
    pub fn store(&self) -> &[u8] {
        self.store.as_ref()
    }

    /// Writes an exporter's binding list at the front of `buffer` and keeps the rest.
    pub fn resolve(&self, oxid: Oxid, buffer: &mut [u8]) -> Result<Resolved> {
        let r = archive!(rimonakh_resolve(
            [self.words()], [self.store()], oxid.0, [mut buffer]
        ));
        answered(r.answer, r.resolved)
    }

    /// Writes the same list with only the string bindings whose tower is among the requested protocols, and the whole security
    /// part.
    pub fn resolve_filtered(
        &self,
        oxid: Oxid,
        protocols: &[u16],
        buffer: &mut [u8],
    ) -> Result<Resolved> {
        let r = archive!(rimonakh_resolve_filtered(
            [self.words()], [self.store()], oxid.0, [protocols], [mut buffer]
        ));
        answered(r.answer, r.resolved)
    }

    /// Where to go next with a reference. A list in the store is borrowed, for it may move when the table changes.
    pub fn next_stop<'a>(&'a self, reference: &'a [u8]) -> Result<Stop<'a>> {
        let store = self.store();
        let r = archive!(rimonakh_next_stop([self.words()], [store], [reference]));
        let stop = if r.in_store {
            Stop::Exporter(&store[r.from..r.to])
        } else {
            Stop::Own(&reference[r.from..r.to])
        };
        answered(r.answer, stop)
    }

    /// Writes the snapshot of the table at the front of a buffer and keeps the rest; its length. A buffer of
    /// [`LONGEST_SNAPSHOT`] bytes is always long enough.
    pub fn write_snapshot(&self, buffer: &mut [u8]) -> Result<usize> {
        let r = archive!(rimonakh_write_snapshot(
            [self.words()], [self.store()], [mut buffer]
        ));
        answered(r.answer, r.length)
    }

    /// The snapshot of the table.
    pub fn snapshot(&self) -> Result<Vec<u8>> {
        let mut bytes = vec![0; LONGEST_SNAPSHOT];
        let length = self.write_snapshot(&mut bytes)?;
        bytes.truncate(length);
        Ok(bytes)
    }

    /// The live number of each kind.
    pub fn census(&self) -> Result<Counts> {
        let r = archive!(rimonakh_census([self.words()], [self.store()]));
        answered(r.answer, r.counts)
    }

    /// The number of a set's members.
    pub fn members(&self, set: SetId) -> Result<usize> {
        let r = archive!(rimonakh_members([self.words()], [self.store()], set.0));
        answered(r.answer, r.count)
    }
}

/// The calls that change the table.
impl<W, S> Table<W, S>
where
    W: AsMut<[u64]>,
    S: AsRef<[u8]> + AsMut<[u8]>,
{
    /// Empties the table.
    pub fn reset(&mut self, time: u64) -> Result<()> {
        let number = archive!(rimonakh_reset(
            [mut self.words.as_mut()], [self.store.as_ref()], time
        ));
        answered(number, ())
    }

    /// Enters an exporter with its remote-unknown IPID and its binding list.
    pub fn enter_exporter(&mut self, oxid: Oxid, unknown: Guid, list: &[u8]) -> Result<()> {
        let number = archive!(rimonakh_enter_exporter(
            [mut self.words.as_mut()], [mut self.store.as_mut()], oxid.0, {unknown}, [list]
        ));
        answered(number, ())
    }

    /// Removes an exporter with its objects, their interfaces and memberships.
    pub fn remove_exporter(&mut self, oxid: Oxid) -> Result<()> {
        let number = archive!(rimonakh_remove_exporter(
            [mut self.words.as_mut()], [mut self.store.as_mut()], oxid.0
        ));
        answered(number, ())
    }

    /// Enters an object with its first interface.
    pub fn enter_object(
        &mut self,
        oid: Oid,
        oxid: Oxid,
        ipid: Guid,
        iid: Guid,
        public: u32,
        no_ping: bool,
    ) -> Result<()> {
        let number = archive!(rimonakh_enter_object(
            [mut self.words.as_mut()], [self.store.as_ref()], oid.0, oxid.0, {ipid}, {iid}, public, no_ping
        ));
        answered(number, ())
    }

    /// Enters an interface of a live object.
    pub fn enter_interface(&mut self, oid: Oid, ipid: Guid, iid: Guid, public: u32) -> Result<()> {
        let number = archive!(rimonakh_enter_interface(
            [mut self.words.as_mut()], [self.store.as_ref()], oid.0, {ipid}, {iid}, public
        ));
        answered(number, ())
    }

    /// Adds to the public count of an interface and to the private one of a client, 0 to 7.
    pub fn add(&mut self, client: u32, ipid: Guid, public: u32, private: u32) -> Result<()> {
        let number = archive!(rimonakh_add(
            [mut self.words.as_mut()], [self.store.as_ref()], client, {ipid}, public, private
        ));
        answered(number, ())
    }

    /// Gives references back, private ones of a client. An interface without references goes; an object without interfaces
    /// goes, from its sets too.
    pub fn release(
        &mut self,
        client: u32,
        ipid: Guid,
        public: u32,
        private: u32,
    ) -> Result<Released> {
        let r = archive!(rimonakh_release(
            [mut self.words.as_mut()], [self.store.as_ref()], client, {ipid}, public, private
        ));
        let released = Released {
            public: r.public,
            private: r.private,
            interface_went: r.interfaces != 0,
            object_went: r.objects != 0,
        };
        answered(r.answer, released)
    }

    /// Adds references by a list of items' bytes for a client, one by one from the left. The number of each item is written to
    /// its byte at the front of `results`, whose rest is kept; 6 and 8 belong to one item and do not stop the rest.
    pub fn add_list(&mut self, client: u32, items: &[u8], results: &mut [u8]) -> Result<()> {
        let number = archive!(rimonakh_add_list(
            [mut self.words.as_mut()], [self.store.as_ref()], client, [items], [mut results]
        ));
        answered(number, ())
    }

    /// Gives references back by a list of items' bytes, likewise.
    pub fn release_list(&mut self, client: u32, items: &[u8], results: &mut [u8]) -> Result<()> {
        let number = archive!(rimonakh_release_list(
            [mut self.words.as_mut()], [self.store.as_ref()], client, [items], [mut results]
        ));
        answered(number, ())
    }

    /// Drops every private reference of a client, 0 to 7. What is left without references goes as in a release.
    pub fn drop_client(&mut self, client: u32) -> Result<()> {
        let number = archive!(rimonakh_drop_client(
            [mut self.words.as_mut()], [self.store.as_ref()], client
        ));
        answered(number, ())
    }

    /// Pings a set: it and its members are heard.
    pub fn simple_ping(&mut self, set: SetId) -> Result<()> {
        let number = archive!(rimonakh_simple_ping(
            [mut self.words.as_mut()], [self.store.as_ref()], set.0
        ));
        answered(number, ())
    }

    /// Adds objects to a set, takes objects out of it and pings it. Set 0 makes a set.
    pub fn complex_ping(
        &mut self,
        set: SetId,
        sequence: u16,
        adds: &[Oid],
        deletes: &[Oid],
    ) -> Result<Pinged> {
        let (adds, deletes) = (Oid::numbers(adds), Oid::numbers(deletes));
        let r = archive!(rimonakh_complex_ping(
            [mut self.words.as_mut()], [self.store.as_ref()], set.0, sequence, [adds], [deletes]
        ));
        answered(r.answer, r.pinged)
    }

    /// Sets the clock, in seconds that only rise: those of a monotonic clock, never the wall's. Only this call moves time, so the
    /// program makes it by itself, every few seconds. Sets and pinged objects that were not heard for 360 seconds or more go; answers
    /// how many. A time far ahead ends all of them and can't be taken back, so bound a jump before. After a load go on from
    /// [`snapshot_clock`] by the seconds that pass here.
    pub fn clock(&mut self, time: u64) -> Result<Counts> {
        let r = archive!(rimonakh_clock(
            [mut self.words.as_mut()], [self.store.as_ref()], time
        ));
        answered(r.answer, r.counts)
    }

    /// Takes over what a snapshot holds; what the table held before is gone, and need not have been sound. Its stack is 150 KiB at most.
    pub fn load_snapshot(&mut self, snapshot: &[u8]) -> Result<()> {
        let number = archive!(rimonakh_load_snapshot(
            [mut self.words.as_mut()], [mut self.store.as_mut()], [snapshot]
        ));
        answered(number, ())
    }

    /// Replays a recording from a reset at 0, up to the first record whose answer is not ours, that call done. What the table held
    /// before is gone, and need not have been sound. Its stack is 220 KiB at most.
    pub fn replay(&mut self, recording: &[u8]) -> Result<Outcome> {
        let r = archive!(rimonakh_replay(
            [mut self.words.as_mut()], [mut self.store.as_mut()], [recording]
        ));
        let outcome = Outcome {
            differs: (r.differs != 0).then_some(r.differs),
            tally: r.tally,
        };
        answered(r.answer, outcome)
    }
}
