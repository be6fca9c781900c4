//! The model: a run's entries; and over the array and the store of the library, where live entries are read from their words, and put
//! there.

use crate::call::{counts, done, halves, released, told, written, Answer, Call, Calls, Reply};
use crate::calls::LENGTH;
use crate::decode;
use crate::subject::Subject;
use model::entries::{Counts, Entries, Stop, Way};
use model::Guid;

/// The model's side of a run: its entries, which are sound unless a word or byte was changed behind the calls.
pub struct Side {
    pub entries: Entries,
    pub sound: bool,
}

impl Side {
    /// The reply that document 01 demands.
    pub fn perform(&mut self, call: &Call) -> Reply {
        match call {
            Call::Reset { .. } | Call::LoadSnapshot { .. } => call.by(self),
            _ if !self.sound => call.refused(1),
            _ => call.by(self),
        }
    }

    /// Takes over what the memory holds.
    pub fn decode(&mut self, words: &[u64], store: &[u8]) {
        self.entries = decode::entries(words, store);
        self.sound = self.entries.sound();
    }

    fn count_list(&mut self, way: Way, client: u32, room: usize, items: &[u8]) -> Answer<0> {
        let counted = |out: &mut [u8]| self.entries.count_list(way, client, items, out);
        written(room, counted, |()| [])
    }
}

fn of(c: Counts) -> [usize; 4] {
    [c.exporters, c.objects, c.interfaces, c.sets]
}

fn resolved((length, unknown): (usize, Guid)) -> [u64; 3] {
    let [low, high] = halves(unknown);
    [length as u64, low, high]
}

impl Calls for Side {
    fn reset(&mut self, time: u64) -> Answer<0> {
        self.entries = Entries::empty(time);
        self.sound = true;
        Ok(told([]))
    }

    fn enter_exporter(&mut self, oxid: u64, unknown: Guid, list: &[u8]) -> Answer<0> {
        let entered = self.entries.enter_exporter(oxid, unknown, list);
        entered.map(done)
    }

    fn remove_exporter(&mut self, oxid: u64) -> Answer<0> {
        self.entries.remove_exporter(oxid).map(done)
    }

    fn enter_object(
        &mut self,
        oid: u64,
        oxid: u64,
        ipid: Guid,
        iid: Guid,
        public: u32,
        no_ping: bool,
    ) -> Answer<0> {
        let e = &mut self.entries;
        e.enter_object(oid, oxid, ipid, iid, public, no_ping)
            .map(done)
    }

    fn enter_interface(&mut self, oid: u64, ipid: Guid, iid: Guid, public: u32) -> Answer<0> {
        let entered = self.entries.enter_interface(oid, ipid, iid, public);
        entered.map(done)
    }

    fn add(&mut self, client: u32, ipid: Guid, public: u32, private: u32) -> Answer<0> {
        self.entries.add(client, ipid, public, private).map(done)
    }

    fn release(&mut self, client: u32, ipid: Guid, public: u32, private: u32) -> Answer<4> {
        let r = self.entries.release(client, ipid, public, private)?;
        let went = [r.interface_went, r.object_went];
        Ok(released(r.public, r.private, went))
    }

    fn drop_client(&mut self, client: u32) -> Answer<0> {
        self.entries.drop_client(client).map(done)
    }

    fn add_list(&mut self, client: u32, room: usize, items: &[u8]) -> Answer<0> {
        self.count_list(Way::Add, client, room, items)
    }

    fn release_list(&mut self, client: u32, room: usize, items: &[u8]) -> Answer<0> {
        self.count_list(Way::Release, client, room, items)
    }

    fn simple_ping(&mut self, set: u64) -> Answer<0> {
        self.entries.simple_ping(set).map(done)
    }

    fn complex_ping(
        &mut self,
        set: u64,
        sequence: u16,
        adds: &[u64],
        deletes: &[u64],
    ) -> Answer<2> {
        let pinged = self.entries.complex_ping(set, sequence, adds, deletes);
        pinged.map(|set| told([set, 0]))
    }

    fn clock(&mut self, time: u64) -> Answer<4> {
        self.entries.set_clock(time).map(|c| counts(of(c)))
    }

    fn resolve(&mut self, oxid: u64, room: usize) -> Answer<3> {
        written(room, |out| self.entries.resolve(oxid, out), resolved)
    }

    fn resolve_filtered(&mut self, oxid: u64, room: usize, protocols: &[u16]) -> Answer<3> {
        let filtered = |out: &mut [u8]| self.entries.resolve_filtered(oxid, protocols, out);
        written(room, filtered, resolved)
    }

    fn census(&mut self) -> Answer<4> {
        Ok(counts(of(self.entries.census())))
    }

    fn members(&mut self, set: u64) -> Answer<1> {
        self.entries.members(set).map(|n| told([n as u64]))
    }

    fn next_stop(&mut self, reference: &[u8]) -> Answer<1> {
        self.entries.next_stop(reference).map(|stop| match stop {
            Stop::Exporter(list) => ([1], list),
            Stop::Own(list) => ([0], list),
        })
    }

    fn write_snapshot(&mut self, room: usize) -> Answer<1> {
        let entries = &self.entries;
        written(room, |out| entries.write_snapshot(out), |n| [n as u64])
    }

    fn load_snapshot(&mut self, snapshot: &[u8]) -> Answer<0> {
        self.entries.load_snapshot(snapshot)?;
        self.sound = true;
        Ok(told([]))
    }
}

pub struct Model;

impl Subject for Model {
    const NAME: &'static str = "model";

    fn perform(words: &mut [u64], store: &mut [u8], call: &Call) -> Reply {
        if (words.len(), store.len()) != (LENGTH, LENGTH) {
            return call.refused(1);
        }
        let before = decode::entries(words, store);
        let mut side = Side {
            sound: before.sound(),
            entries: before.clone(),
        };
        let reply = side.perform(call);
        if reply.number == 0 && side.entries != before {
            decode::encode(&side.entries, words, store);
        }
        reply
    }
}
