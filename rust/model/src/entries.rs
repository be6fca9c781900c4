//! The live entries, what sound means, and the calls.

use crate::bytes;
use crate::snapshot;
use crate::Guid;
use std::collections::{BTreeSet, HashSet};
use std::hash::Hash;

pub const EXPORTERS: usize = 16;
pub const OBJECTS: usize = 128;
pub const INTERFACES: usize = 256;
pub const SETS: usize = 32;
pub const CLIENTS: usize = 8;

/// The longest list of an exporter, and all lists together, in bytes.
pub const LONGEST_LIST: usize = 2048;
pub const STORE: usize = 8192;

const NIL: Guid = [0; 16];

#[derive(Clone, Debug, PartialEq, Eq)]
pub struct Exporter {
    pub oxid: u64,
    /// The IPID of the remote-unknown interface.
    pub unknown: Guid,
    pub list: Vec<u8>,
}

#[derive(Clone, Debug, PartialEq, Eq)]
pub struct Object {
    pub oid: u64,
    pub exporter: u64,
    pub no_ping: bool,
    pub heard: u64,
}

#[derive(Clone, Debug, PartialEq, Eq)]
pub struct Interface {
    pub ipid: Guid,
    pub iid: Guid,
    pub object: u64,
    pub public: u32,
    /// Of each client.
    pub private: [u32; CLIENTS],
}

impl Interface {
    fn is_held(&self) -> bool {
        self.public != 0 || self.private != [0; CLIENTS]
    }
}

/// What a list of items does.
#[derive(Clone, Copy, Debug, PartialEq, Eq)]
pub enum Way {
    Add,
    Release,
}

/// The index of a client, or 20.
fn client_index(client: u32) -> Result<usize, u32> {
    let index = client as usize;
    if index < CLIENTS {
        Ok(index)
    } else {
        Err(20)
    }
}

#[derive(Clone, Debug, PartialEq, Eq)]
pub struct PingSet {
    pub number: u64,
    pub sequence: u16,
    pub pinged: u64,
    pub members: BTreeSet<u64>,
}

#[derive(Clone, Debug, PartialEq, Eq)]
pub struct Entries {
    pub clock: u64,
    pub next_set: u64,
    pub exporters: Vec<Exporter>,
    pub objects: Vec<Object>,
    pub interfaces: Vec<Interface>,
    pub sets: Vec<PingSet>,
}

#[derive(Clone, Copy, Debug, PartialEq, Eq)]
pub struct Released {
    pub public: u32,
    pub private: u32,
    pub interface_went: bool,
    pub object_went: bool,
}

/// Numbers of each kind: of live entries, or of those that went.
#[derive(Clone, Copy, Debug, PartialEq, Eq)]
pub struct Counts {
    pub exporters: usize,
    pub objects: usize,
    pub interfaces: usize,
    pub sets: usize,
}

/// Where to go next: an exporter's list in the store, or the reference's own.
#[derive(Clone, Debug, PartialEq, Eq)]
pub enum Stop {
    Exporter(Vec<u8>),
    Own(Vec<u8>),
}

fn distinct<T: Eq + Hash>(ids: impl Iterator<Item = T>) -> bool {
    let mut seen = HashSet::new();
    ids.into_iter().all(|id| seen.insert(id))
}

fn is_stale(last: u16, new: u16) -> bool {
    let step = (65_536 + new as u32 - last as u32) % 65_536;
    step == 0 || step > 32_767
}

impl Entries {
    pub fn empty(clock: u64) -> Entries {
        Entries {
            clock,
            next_set: 1,
            exporters: Vec::new(),
            objects: Vec::new(),
            interfaces: Vec::new(),
            sets: Vec::new(),
        }
    }

    fn has_exporter(&self, oxid: u64) -> bool {
        self.exporters.iter().any(|x| x.oxid == oxid)
    }

    fn has_object(&self, oid: u64) -> bool {
        self.objects.iter().any(|o| o.oid == oid)
    }

    /// IPIDs of remote-unknown interfaces and of interfaces are one kind.
    fn has_ipid(&self, ipid: Guid) -> bool {
        self.exporters.iter().any(|x| x.unknown == ipid)
            || self.interfaces.iter().any(|i| i.ipid == ipid)
    }

    fn overdue(last: u64, clock: u64) -> bool {
        clock - last >= 360
    }

    pub fn sound(&self) -> bool {
        let ipids = || {
            let unknowns = self.exporters.iter().map(|x| x.unknown);
            unknowns.chain(self.interfaces.iter().map(|i| i.ipid))
        };
        let oids: HashSet<u64> = self.objects.iter().map(|o| o.oid).collect();
        let served: HashSet<u64> = self.interfaces.iter().map(|i| i.object).collect();
        self.exporters.iter().all(|x| x.oxid != 0)
            && self.objects.iter().all(|o| o.oid != 0)
            && self.sets.iter().all(|s| s.number != 0)
            && ipids().all(|i| i != NIL)
            && distinct(self.exporters.iter().map(|x| x.oxid))
            && distinct(self.objects.iter().map(|o| o.oid))
            && distinct(self.sets.iter().map(|s| s.number))
            && distinct(ipids())
            && self.interfaces.iter().all(|i| oids.contains(&i.object))
            && self.objects.iter().all(|o| self.has_exporter(o.exporter))
            && self.objects.iter().all(|o| served.contains(&o.oid))
            && self.interfaces.iter().all(Interface::is_held)
            && self
                .sets
                .iter()
                .all(|s| s.members.is_subset(&oids.iter().copied().collect()))
            && self.objects.iter().all(|o| {
                o.heard <= self.clock && (o.no_ping || !Self::overdue(o.heard, self.clock))
            })
            && self
                .sets
                .iter()
                .all(|s| s.pinged <= self.clock && !Self::overdue(s.pinged, self.clock))
            && self.next_set != 0
            && self.sets.iter().all(|s| s.number < self.next_set)
            && self
                .exporters
                .iter()
                .all(|x| bytes::list(&x.list).is_ok() && x.list.len() <= LONGEST_LIST)
            && self.list_bytes() <= STORE
    }

    /// The bytes of all lists together.
    pub fn list_bytes(&self) -> usize {
        self.exporters.iter().map(|x| x.list.len()).sum()
    }

    pub fn enter_exporter(&mut self, oxid: u64, unknown: Guid, list: &[u8]) -> Result<(), u32> {
        if oxid == 0 || self.has_exporter(oxid) || unknown == NIL || self.has_ipid(unknown) {
            return Err(3);
        }
        bytes::list(list)?;
        if list.len() > LONGEST_LIST {
            return Err(19);
        }
        if self.exporters.len() == EXPORTERS || self.list_bytes() + list.len() > STORE {
            return Err(9);
        }
        self.exporters.push(Exporter {
            oxid,
            unknown,
            list: list.to_vec(),
        });
        Ok(())
    }

    pub fn remove_exporter(&mut self, oxid: u64) -> Result<(), u32> {
        if !self.has_exporter(oxid) {
            return Err(4);
        }
        self.exporters.retain(|x| x.oxid != oxid);
        self.retain_objects(|o| o.exporter != oxid);
        Ok(())
    }

    /// Objects that do not stay go, with their interfaces and memberships.
    fn retain_objects(&mut self, stays: impl Fn(&Object) -> bool) {
        let gone: HashSet<u64> = self
            .objects
            .iter()
            .filter(|o| !stays(o))
            .map(|o| o.oid)
            .collect();
        self.objects.retain(|o| !gone.contains(&o.oid));
        self.interfaces.retain(|i| !gone.contains(&i.object));
        for s in &mut self.sets {
            s.members.retain(|m| !gone.contains(m));
        }
    }

    pub fn enter_object(
        &mut self,
        oid: u64,
        oxid: u64,
        ipid: Guid,
        iid: Guid,
        public: u32,
        no_ping: bool,
    ) -> Result<(), u32> {
        if oid == 0 || self.has_object(oid) || ipid == NIL || self.has_ipid(ipid) {
            return Err(3);
        }
        if !self.has_exporter(oxid) {
            return Err(4);
        }
        if public == 0 {
            return Err(7);
        }
        if self.objects.len() == OBJECTS || self.interfaces.len() == INTERFACES {
            return Err(9);
        }
        self.objects.push(Object {
            oid,
            exporter: oxid,
            no_ping,
            heard: self.clock,
        });
        self.push_interface(oid, ipid, iid, public);
        Ok(())
    }

    fn push_interface(&mut self, object: u64, ipid: Guid, iid: Guid, public: u32) {
        self.interfaces.push(Interface {
            ipid,
            iid,
            object,
            public,
            private: [0; CLIENTS],
        });
    }

    pub fn enter_interface(
        &mut self,
        oid: u64,
        ipid: Guid,
        iid: Guid,
        public: u32,
    ) -> Result<(), u32> {
        if ipid == NIL || self.has_ipid(ipid) {
            return Err(3);
        }
        if !self.has_object(oid) {
            return Err(5);
        }
        if public == 0 {
            return Err(7);
        }
        if self.interfaces.len() == INTERFACES {
            return Err(9);
        }
        self.push_interface(oid, ipid, iid, public);
        Ok(())
    }

    fn interface(&mut self, ipid: Guid) -> Result<&mut Interface, u32> {
        self.interfaces.iter_mut().find(|i| i.ipid == ipid).ok_or(6)
    }

    pub fn add(&mut self, client: u32, ipid: Guid, public: u32, private: u32) -> Result<(), u32> {
        let client = client_index(client)?;
        let i = self.interface(ipid)?;
        let public = i.public.checked_add(public).ok_or(8u32)?;
        let private = i.private[client].checked_add(private).ok_or(8u32)?;
        i.public = public;
        i.private[client] = private;
        Ok(())
    }

    pub fn release(
        &mut self,
        client: u32,
        ipid: Guid,
        public: u32,
        private: u32,
    ) -> Result<Released, u32> {
        let client = client_index(client)?;
        let i = self.interface(ipid)?;
        let public = public.min(i.public);
        let private = private.min(i.private[client]);
        i.public -= public;
        i.private[client] -= private;
        let before = self.census();
        self.drop_unheld();
        let after = self.census();
        Ok(Released {
            public,
            private,
            interface_went: after.interfaces < before.interfaces,
            object_went: after.objects < before.objects,
        })
    }

    /// Adds or releases by items of 24 bytes, one by one from the left. The number of each goes to its byte of `results`.
    pub fn count_list(
        &mut self,
        way: Way,
        client: u32,
        items: &[u8],
        results: &mut [u8],
    ) -> Result<(), u32> {
        client_index(client)?;
        if !items.len().is_multiple_of(24) {
            return Err(13);
        }
        if items.len() / 24 > 65_535 {
            return Err(10);
        }
        if results.len() < items.len() / 24 {
            return Err(15);
        }
        for (item, result) in items.chunks(24).zip(results) {
            let ipid: Guid = item[..16].try_into().unwrap();
            let public = u32::from_le_bytes(item[16..20].try_into().unwrap());
            let private = u32::from_le_bytes(item[20..].try_into().unwrap());
            let done = match way {
                Way::Add => self.add(client, ipid, public, private),
                Way::Release => self.release(client, ipid, public, private).map(|_| ()),
            };
            *result = done.err().unwrap_or(0) as u8;
        }
        Ok(())
    }

    /// Takes every private reference of a client.
    pub fn drop_client(&mut self, client: u32) -> Result<(), u32> {
        let client = client_index(client)?;
        for i in &mut self.interfaces {
            i.private[client] = 0;
        }
        self.drop_unheld();
        Ok(())
    }

    /// Interfaces without references go, then objects without interfaces.
    fn drop_unheld(&mut self) {
        self.interfaces.retain(Interface::is_held);
        let served: HashSet<u64> = self.interfaces.iter().map(|i| i.object).collect();
        self.retain_objects(|o| served.contains(&o.oid));
    }

    fn set(&mut self, number: u64) -> Result<&mut PingSet, u32> {
        self.sets.iter_mut().find(|s| s.number == number).ok_or(11)
    }

    /// The set's ping time and its members' heard times become the clock.
    fn ping(&mut self, number: u64) {
        let clock = self.clock;
        let Ok(s) = self.set(number) else { return };
        s.pinged = clock;
        let members = s.members.clone();
        for o in &mut self.objects {
            if members.contains(&o.oid) {
                o.heard = clock;
            }
        }
    }

    pub fn simple_ping(&mut self, number: u64) -> Result<(), u32> {
        self.set(number)?;
        self.ping(number);
        Ok(())
    }

    /// Answers the set's number; the backoff factor is always 0.
    pub fn complex_ping(
        &mut self,
        number: u64,
        sequence: u16,
        adds: &[u64],
        deletes: &[u64],
    ) -> Result<u64, u32> {
        if adds.len() > 65_535 || deletes.len() > 65_535 {
            return Err(10);
        }
        if number != 0 && is_stale(self.set(number)?.sequence, sequence) {
            return Err(12);
        }
        if adds.iter().any(|&id| !self.has_object(id)) {
            return Err(5);
        }
        let number = if number == 0 {
            self.make_set(sequence)?
        } else {
            number
        };
        let s = self.set(number)?;
        s.members.extend(adds);
        s.members.retain(|m| !deletes.contains(m));
        s.sequence = sequence;
        self.ping(number);
        Ok(number)
    }

    fn make_set(&mut self, sequence: u16) -> Result<u64, u32> {
        if self.sets.len() == SETS {
            return Err(9);
        }
        if self.next_set == u64::MAX {
            return Err(18);
        }
        let number = self.next_set;
        self.next_set += 1;
        self.sets.push(PingSet {
            number,
            sequence,
            pinged: self.clock,
            members: BTreeSet::new(),
        });
        Ok(number)
    }

    pub fn set_clock(&mut self, time: u64) -> Result<Counts, u32> {
        if time < self.clock {
            return Err(2);
        }
        let before = self.census();
        self.clock = time;
        self.sets.retain(|s| !Self::overdue(s.pinged, time));
        self.retain_objects(|o| o.no_ping || !Self::overdue(o.heard, time));
        let after = self.census();
        Ok(Counts {
            exporters: 0,
            objects: before.objects - after.objects,
            interfaces: before.interfaces - after.interfaces,
            sets: before.sets - after.sets,
        })
    }

    /// Writes the list; answers its length and the remote-unknown IPID.
    pub fn resolve(&self, oxid: u64, buffer: &mut [u8]) -> Result<(usize, Guid), u32> {
        let x = self.exporters.iter().find(|x| x.oxid == oxid).ok_or(4u32)?;
        Ok((bytes::put(&x.list, buffer)?, x.unknown))
    }

    /// The same with only the string bindings of the requested protocols.
    pub fn resolve_filtered(
        &self,
        oxid: u64,
        protocols: &[u16],
        buffer: &mut [u8],
    ) -> Result<(usize, Guid), u32> {
        if protocols.len() > 65_535 {
            return Err(10);
        }
        let x = self.exporters.iter().find(|x| x.oxid == oxid).ok_or(4u32)?;
        let list = bytes::filtered_list(&x.list, protocols);
        Ok((bytes::put(&list, buffer)?, x.unknown))
    }

    pub fn census(&self) -> Counts {
        Counts {
            exporters: self.exporters.len(),
            objects: self.objects.len(),
            interfaces: self.interfaces.len(),
            sets: self.sets.len(),
        }
    }

    /// Writes the snapshot; answers its length.
    pub fn write_snapshot(&self, buffer: &mut [u8]) -> Result<usize, u32> {
        bytes::put(&snapshot::write(self), buffer)
    }

    /// Becomes what a snapshot holds.
    pub fn load_snapshot(&mut self, bytes: &[u8]) -> Result<(), u32> {
        *self = snapshot::read(bytes)?;
        Ok(())
    }

    pub fn members(&self, number: u64) -> Result<usize, u32> {
        let set = self.sets.iter().find(|s| s.number == number);
        set.map(|s| s.members.len()).ok_or(11)
    }

    pub fn next_stop(&self, reference: &[u8]) -> Result<Stop, u32> {
        let (r, tail) = bytes::read_reference(reference)?;
        if r.flags == 4 {
            return Err(14);
        }
        Ok(match self.exporters.iter().find(|x| x.oxid == r.oxid) {
            Some(x) => Stop::Exporter(x.list.clone()),
            None => Stop::Own(reference[tail].to_vec()),
        })
    }
}
