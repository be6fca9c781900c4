//! A table whose calls are recorded, and what a replay finds.

use super::fields::{Oids, Protocols, Room};
use super::{Call, Recording, Results};
use crate::Table;
use crate::{Counts, Guid, Item, Oid, Oxid, Pinged, Released, Resolved, Result, SetId, Stop};
use alloc::boxed::Box;
use alloc::vec::Vec;
use core::fmt;

/// What was granted, what releases took, and what the removal of an exporter, a clock or the drop of a client took.
#[repr(C)]
#[derive(Clone, Copy, Debug, Default, PartialEq, Eq)]
pub struct Tally {
    /// References that were granted.
    pub granted: u64,
    /// Those that releases took.
    pub taken: u64,
    /// Those that went with an exporter, by the clock or with a client.
    pub rundown: u64,
}

impl Tally {
    /// The sum of the counts that the table holds.
    pub fn held(self) -> u64 {
        self.granted - self.taken - self.rundown
    }
}

/// What a replay found.
#[derive(Clone, Copy, Debug, Default, PartialEq, Eq)]
pub struct Outcome {
    /// The number of the first record whose answer is not the table's, from 1; none where every answer agrees.
    pub differs: Option<u32>,
    /// The sums up to there.
    pub tally: Tally,
}

/// A table whose calls are recorded, each with its answer, as they are made. Its replay agrees.
///
/// ```
/// use rimonakh::{Guid, Oid, Oxid, Recorder, Table};
///
/// let list = [4, 0, 3, 0, 7, 0, 0, 0, 0, 0, 0, 0];
/// let (ipid, iid) = (Guid([2; 16]), Guid([3; 16]));
/// let mut day = Recorder::new(1000);
/// day.enter_exporter(Oxid(1), Guid([1; 16]), &list)?;
/// day.enter_object(Oid(1), Oxid(1), ipid, iid, 5, false)?;
/// assert!(day.release(0, ipid, 9, 0)?.object_went);
///
/// let outcome = Table::new(0).replay(day.recording())?;
/// assert_eq!(outcome.differs, None);
/// assert_eq!((outcome.tally.granted, outcome.tally.taken), (5, 5));
/// # Ok::<(), rimonakh::Error>(())
/// ```
#[derive(Clone)]
pub struct Recorder<W = Box<[u64]>, S = Box<[u8]>> {
    table: Table<W, S>,
    recording: Recording,
}

impl Recorder {
    /// An empty table, whose reset is the first record.
    pub fn new(time: u64) -> Recorder {
        Recorder::after(Table::new(time), Call::Reset { time })
    }
}

/// Shows the table's entries and the number of records.
impl<W, S> fmt::Debug for Recorder<W, S>
where
    W: AsRef<[u64]>,
    S: AsRef<[u8]>,
{
    fn fmt(&self, f: &mut fmt::Formatter<'_>) -> fmt::Result {
        let mut shown = f.debug_struct("Recorder");
        shown.field("table", &self.table);
        shown.field("records", &self.records()).finish()
    }
}

impl<W, S> Recorder<W, S> {
    /// A table as an accepted call that shows nothing has left it.
    fn after(table: Table<W, S>, call: Call) -> Recorder<W, S> {
        let mut recording = Recording::new();
        recording.tell(call, &Ok(()), |()| ().into(), |()| &[]);
        Recorder { table, recording }
    }

    /// The table as it is.
    pub fn table(&self) -> &Table<W, S> {
        &self.table
    }

    /// The recording so far.
    pub fn recording(&self) -> &[u8] {
        self.recording.bytes()
    }

    /// The number of records. A recording of more than [`MOST_RECORDS`](crate::limits::MOST_RECORDS) is not replayed.
    pub fn records(&self) -> u64 {
        self.recording.records()
    }

    /// The table and its recording.
    pub fn finish(self) -> (Table<W, S>, Vec<u8>) {
        (self.table, self.recording.into_bytes())
    }
}

impl<W, S> Recorder<W, S>
where
    W: AsRef<[u64]> + AsMut<[u64]>,
    S: AsRef<[u8]> + AsMut<[u8]>,
{
    /// A table that is in service: the load of its snapshot is the first record. Refused where the table is not sound.
    pub fn over(table: Table<W, S>) -> Result<Recorder<W, S>> {
        let snapshot = &table.snapshot()?;
        Ok(Recorder::after(table, Call::LoadSnapshot { snapshot }))
    }

    /// [`Table::reset`], recorded.
    pub fn reset(&mut self, time: u64) -> Result<()> {
        let done = self.table.reset(time);
        self.recording.plain(Call::Reset { time }, done)
    }

    /// [`Table::enter_exporter`], recorded.
    pub fn enter_exporter(&mut self, oxid: Oxid, unknown: Guid, list: &[u8]) -> Result<()> {
        let done = self.table.enter_exporter(oxid, unknown, list);
        let call = Call::EnterExporter {
            oxid,
            unknown,
            list,
        };
        self.recording.plain(call, done)
    }

    /// [`Table::remove_exporter`], recorded.
    pub fn remove_exporter(&mut self, oxid: Oxid) -> Result<()> {
        let done = self.table.remove_exporter(oxid);
        self.recording.plain(Call::RemoveExporter { oxid }, done)
    }

    /// [`Table::enter_object`], recorded.
    pub fn enter_object(
        &mut self,
        oid: Oid,
        oxid: Oxid,
        ipid: Guid,
        iid: Guid,
        public: u32,
        no_ping: bool,
    ) -> Result<()> {
        let table = &mut self.table;
        let done = table.enter_object(oid, oxid, ipid, iid, public, no_ping);
        let call = Call::EnterObject {
            oid,
            oxid,
            ipid,
            iid,
            public,
            no_ping,
        };
        self.recording.plain(call, done)
    }

    /// [`Table::enter_interface`], recorded.
    pub fn enter_interface(&mut self, oid: Oid, ipid: Guid, iid: Guid, public: u32) -> Result<()> {
        let done = self.table.enter_interface(oid, ipid, iid, public);
        let call = Call::EnterInterface {
            oid,
            ipid,
            iid,
            public,
        };
        self.recording.plain(call, done)
    }

    /// [`Table::add`], recorded.
    pub fn add(&mut self, client: u32, ipid: Guid, public: u32, private: u32) -> Result<()> {
        let done = self.table.add(client, ipid, public, private);
        let call = Call::Add {
            client,
            ipid,
            public,
            private,
        };
        self.recording.plain(call, done)
    }

    /// [`Table::release`], recorded.
    pub fn release(
        &mut self,
        client: u32,
        ipid: Guid,
        public: u32,
        private: u32,
    ) -> Result<Released> {
        let done = self.table.release(client, ipid, public, private);
        let call = Call::Release {
            client,
            ipid,
            public,
            private,
        };
        self.recording.plain(call, done)
    }

    /// [`Table::drop_client`], recorded.
    pub fn drop_client(&mut self, client: u32) -> Result<()> {
        let done = self.table.drop_client(client);
        self.recording.plain(Call::DropClient { client }, done)
    }

    /// [`Table::add_list`], recorded.
    pub fn add_list(&mut self, client: u32, items: &[u8], results: &mut [u8]) -> Result<()> {
        let done = self.table.add_list(client, items, results);
        let call = Call::AddList {
            client,
            items,
            room: Room::of(results),
        };
        let each = |()| items.len() / Item::SIZE;
        self.recording.written(call, done, results, each)
    }

    /// [`Table::release_list`], recorded.
    pub fn release_list(&mut self, client: u32, items: &[u8], results: &mut [u8]) -> Result<()> {
        let done = self.table.release_list(client, items, results);
        let call = Call::ReleaseList {
            client,
            items,
            room: Room::of(results),
        };
        let each = |()| items.len() / Item::SIZE;
        self.recording.written(call, done, results, each)
    }

    /// [`Table::simple_ping`], recorded.
    pub fn simple_ping(&mut self, set: SetId) -> Result<()> {
        let done = self.table.simple_ping(set);
        self.recording.plain(Call::SimplePing { set }, done)
    }

    /// [`Table::complex_ping`], recorded.
    pub fn complex_ping(
        &mut self,
        set: SetId,
        sequence: u16,
        adds: &[Oid],
        deletes: &[Oid],
    ) -> Result<Pinged> {
        let done = self.table.complex_ping(set, sequence, adds, deletes);
        let call = Call::ComplexPing {
            set,
            sequence,
            adds: Oids(&Oids::bytes(adds)),
            deletes: Oids(&Oids::bytes(deletes)),
        };
        self.recording.plain(call, done)
    }

    /// [`Table::clock`], recorded.
    pub fn clock(&mut self, time: u64) -> Result<Counts> {
        let done = self.table.clock(time);
        self.recording.plain(Call::Clock { time }, done)
    }

    /// [`Table::resolve`], recorded.
    pub fn resolve(&mut self, oxid: Oxid, buffer: &mut [u8]) -> Result<Resolved> {
        let done = self.table.resolve(oxid, buffer);
        let room = Room::of(buffer);
        let call = Call::Resolve { oxid, room };
        self.recording.written(call, done, buffer, |r| r.length)
    }

    /// [`Table::resolve_filtered`], recorded.
    pub fn resolve_filtered(
        &mut self,
        oxid: Oxid,
        protocols: &[u16],
        buffer: &mut [u8],
    ) -> Result<Resolved> {
        let done = self.table.resolve_filtered(oxid, protocols, buffer);
        let call = Call::ResolveFiltered {
            oxid,
            protocols: Protocols(&Protocols::bytes(protocols)),
            room: Room::of(buffer),
        };
        self.recording.written(call, done, buffer, |r| r.length)
    }

    /// [`Table::census`], recorded.
    pub fn census(&mut self) -> Result<Counts> {
        let done = self.table.census();
        self.recording.plain(Call::Census {}, done)
    }

    /// [`Table::members`], recorded.
    pub fn members(&mut self, set: SetId) -> Result<usize> {
        let done = self.table.members(set);
        let told = |n: &usize| Results::Members { members: *n as u64 };
        self.recording
            .tell(Call::Members { set }, &done, told, |_| &[]);
        done
    }

    /// [`Table::next_stop`], recorded.
    pub fn next_stop<'a>(&'a mut self, reference: &'a [u8]) -> Result<Stop<'a>> {
        let Recorder { table, recording } = self;
        let done = table.next_stop(reference);
        let shown = |stop: &Stop<'a>| match *stop {
            Stop::Exporter(list) | Stop::Own(list) => list,
        };
        recording.tell(Call::NextStop { reference }, &done, |_| ().into(), shown);
        done
    }

    /// [`Table::write_snapshot`], recorded.
    pub fn write_snapshot(&mut self, buffer: &mut [u8]) -> Result<usize> {
        let done = self.table.write_snapshot(buffer);
        let room = Room::of(buffer);
        let told = |n: &usize| Results::Length { length: *n as u64 };
        self.recording
            .tell(Call::WriteSnapshot { room }, &done, told, |n| &buffer[..*n]);
        done
    }

    /// [`Table::load_snapshot`], recorded.
    pub fn load_snapshot(&mut self, snapshot: &[u8]) -> Result<()> {
        let done = self.table.load_snapshot(snapshot);
        self.recording.plain(Call::LoadSnapshot { snapshot }, done)
    }
}
