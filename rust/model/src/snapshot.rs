//! The snapshot of a table: its live entries as bytes (document 02, request 10).

use crate::entries::{
    Entries, Exporter, Interface, Object, PingSet, CLIENTS, EXPORTERS, INTERFACES, OBJECTS, SETS,
};
use crate::Guid;
use std::collections::BTreeSet;

fn put_count(bytes: &mut Vec<u8>, count: usize) {
    bytes.extend((count as u16).to_le_bytes());
}

/// The sections of entries, in the order in which these stand.
pub fn sections(e: &Entries) -> Vec<u8> {
    let mut bytes = Vec::new();
    put_count(&mut bytes, 2);
    bytes.extend(e.clock.to_le_bytes());
    bytes.extend(e.next_set.to_le_bytes());
    put_count(&mut bytes, e.exporters.len());
    for x in &e.exporters {
        bytes.extend(x.oxid.to_le_bytes());
        bytes.extend(x.unknown);
        put_count(&mut bytes, x.list.len());
        bytes.extend(&x.list);
    }
    put_count(&mut bytes, e.objects.len());
    for o in &e.objects {
        bytes.extend(o.oid.to_le_bytes());
        bytes.extend(o.exporter.to_le_bytes());
        bytes.push(o.no_ping as u8);
        bytes.extend(o.heard.to_le_bytes());
    }
    put_count(&mut bytes, e.interfaces.len());
    for i in &e.interfaces {
        bytes.extend(i.ipid);
        bytes.extend(i.iid);
        bytes.extend(i.object.to_le_bytes());
        bytes.extend(i.public.to_le_bytes());
        bytes.extend(i.private.iter().flat_map(|n| n.to_le_bytes()));
    }
    put_count(&mut bytes, e.sets.len());
    for s in &e.sets {
        bytes.extend(s.number.to_le_bytes());
        bytes.extend(s.sequence.to_le_bytes());
        bytes.extend(s.pinged.to_le_bytes());
        put_count(&mut bytes, s.members.len());
        bytes.extend(s.members.iter().flat_map(|oid| oid.to_le_bytes()));
    }
    bytes
}

/// The same entries, each kind rising by its identifier; IPIDs by their bytes.
pub fn sorted(e: &Entries) -> Entries {
    let mut e = e.clone();
    e.exporters.sort_by_key(|x| x.oxid);
    e.objects.sort_by_key(|o| o.oid);
    e.interfaces.sort_by_key(|i| i.ipid);
    e.sets.sort_by_key(|s| s.number);
    e
}

pub fn write(e: &Entries) -> Vec<u8> {
    sections(&sorted(e))
}

/// The bytes that are not read yet.
struct Rest<'a>(&'a [u8]);

impl Rest<'_> {
    fn take<const N: usize>(&mut self) -> Option<[u8; N]> {
        let (front, rest) = self.0.split_first_chunk::<N>()?;
        self.0 = rest;
        Some(*front)
    }

    fn u16(&mut self) -> Option<u16> {
        Some(u16::from_le_bytes(self.take()?))
    }

    fn u32(&mut self) -> Option<u32> {
        Some(u32::from_le_bytes(self.take()?))
    }

    fn u64(&mut self) -> Option<u64> {
        Some(u64::from_le_bytes(self.take()?))
    }

    fn guid(&mut self) -> Option<Guid> {
        self.take()
    }

    /// A section of at most so many, whose identifiers rise.
    fn section<T, K: Ord>(
        &mut self,
        most: usize,
        one: impl Fn(&mut Self) -> Option<T>,
        id: impl Fn(&T) -> K,
    ) -> Option<Vec<T>> {
        let n = self.u16()? as usize;
        if n > most {
            return None;
        }
        let found: Vec<T> = (0..n).map(|_| one(self)).collect::<Option<_>>()?;
        found
            .windows(2)
            .all(|w| id(&w[0]) < id(&w[1]))
            .then_some(found)
    }

    fn exporter(&mut self) -> Option<Exporter> {
        let (oxid, unknown, n) = (self.u64()?, self.guid()?, self.u16()? as usize);
        let (list, rest) = self.0.split_at_checked(n)?;
        self.0 = rest;
        Some(Exporter {
            oxid,
            unknown,
            list: list.to_vec(),
        })
    }

    fn object(&mut self) -> Option<Object> {
        Some(Object {
            oid: self.u64()?,
            exporter: self.u64()?,
            no_ping: match self.take()? {
                [0] => false,
                [1] => true,
                _ => return None,
            },
            heard: self.u64()?,
        })
    }

    fn interface(&mut self) -> Option<Interface> {
        let mut i = Interface {
            ipid: self.guid()?,
            iid: self.guid()?,
            object: self.u64()?,
            public: self.u32()?,
            private: [0; CLIENTS],
        };
        for count in &mut i.private {
            *count = self.u32()?;
        }
        Some(i)
    }

    fn set(&mut self) -> Option<PingSet> {
        let (number, sequence, pinged) = (self.u64()?, self.u16()?, self.u64()?);
        let members = self.section(OBJECTS, Self::u64, |oid| *oid)?;
        Some(PingSet {
            number,
            sequence,
            pinged,
            members: BTreeSet::from_iter(members),
        })
    }
}

/// The entries of a snapshot, if the bytes are that of a sound table; 23 otherwise.
pub fn read(bytes: &[u8]) -> Result<Entries, u32> {
    let mut rest = Rest(bytes);
    let read = |rest: &mut Rest| {
        if rest.u16()? != 2 {
            return None;
        }
        Some(Entries {
            clock: rest.u64()?,
            next_set: rest.u64()?,
            exporters: rest.section(EXPORTERS, Rest::exporter, |x| x.oxid)?,
            objects: rest.section(OBJECTS, Rest::object, |o| o.oid)?,
            interfaces: rest.section(INTERFACES, Rest::interface, |i| i.ipid)?,
            sets: rest.section(SETS, Rest::set, |s| s.number)?,
        })
    };
    let entries = read(&mut rest).ok_or(23u32)?;
    if rest.0.is_empty() && entries.sound() {
        Ok(entries)
    } else {
        Err(23)
    }
}

#[cfg(test)]
mod tests {
    use super::*;

    /// Document 02's own bytes: a table fresh at clock 100.
    #[test]
    fn fresh_at_100() {
        let mut bytes = vec![2, 0, 0x64, 0, 0, 0, 0, 0, 0, 0, 1, 0, 0, 0, 0, 0, 0, 0];
        bytes.extend([0; 8]);
        assert_eq!(bytes.len(), 26);
        assert_eq!(write(&Entries::empty(100)), bytes);
        assert_eq!(read(&bytes), Ok(Entries::empty(100)));
    }
}
