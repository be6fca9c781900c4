//! Snapshots: the sections of document 02's request 10, and what a sound table asks of the entries, each rule at the first byte that
//! breaks it.

use super::{lists, Walk, Walked};
use rimonakh::limits::{BYTES, EXPORTERS, INTERFACES, LONGEST_LIST, OBJECTS, SETS, SILENCE};
use rimonakh::{Error, Guid};
use std::collections::{BTreeMap, BTreeSet};
use std::fmt::Debug;

/// Why bytes are the snapshot of no sound table.
pub fn snapshot(bytes: &[u8]) -> Walked<()> {
    let mut walk = Walk::new(bytes, Error::NoSnapshot, Error::NoSnapshot);
    let mut seen = Seen::default();
    match walk.u16("the number of the first section's entries")? {
        2 => (),
        n => return walk.fault(0, format!("a snapshot begins with 2 numbers, not with {n}")),
    }
    seen.clock = walk.u64("the clock")?;
    let at = walk.place();
    seen.next_set = walk.u64("the next set number")?;
    if seen.next_set == 0 {
        return walk.fault(at, "the next set number is 0");
    }
    section(&mut walk, EXPORTERS, "exporter", |w, k| seen.exporter(w, k))?;
    section(&mut walk, OBJECTS, "object", |w, k| seen.object(w, k))?;
    section(&mut walk, INTERFACES, "interface", |w, k| {
        seen.interface(w, k)
    })?;
    seen.all_served(&walk)?;
    section(&mut walk, SETS, "set", |w, k| seen.set(w, k))?;
    walk.end("the snapshot")
}

/// A number of entries, then these, rising by what each answers.
fn section<K: Ord + Debug>(
    walk: &mut Walk,
    most: usize,
    name: &str,
    mut one: impl FnMut(&mut Walk, &str) -> Walked<K>,
) -> Walked<()> {
    let at = walk.place();
    let count = walk.u16(format_args!("the number of {name}s"))?;
    if usize::from(count) > most {
        return walk.fault(at, format!("{count} {name}s, where {most} is the most"));
    }
    let mut last = None;
    for k in 0..count {
        let at = walk.place();
        let id = one(walk, &format!("{name} {k}"))?;
        if last.as_ref().is_some_and(|last| *last >= id) {
            return walk.fault(
                at,
                format!("{name} {k} does not rise: {id:x?} follows {last:x?}"),
            );
        }
        last = Some(id);
    }
    Ok(())
}

/// What was seen of the entries before.
#[derive(Default)]
struct Seen {
    clock: u64,
    next_set: u64,
    list_bytes: usize,
    oxids: BTreeSet<u64>,
    /// Where each object stands.
    oids: BTreeMap<u64, usize>,
    ipids: BTreeSet<[u8; 16]>,
    served: BTreeSet<u64>,
}

impl Seen {
    fn exporter(&mut self, walk: &mut Walk, name: &str) -> Walked<u64> {
        let oxid = nonzero(walk, &format!("the OXID of {name}"))?;
        self.ipid(walk, &format!("the remote-unknown IPID of {name}"))?;
        let at = walk.place();
        let length = walk.u16(format_args!("the length of the list of {name}"))?;
        let start = walk.place();
        let list = walk.take(length.into(), format_args!("the list of {name}"))?;
        self.list_bytes += list.len();
        if list.len() > LONGEST_LIST || self.list_bytes > BYTES {
            let most = format!("{LONGEST_LIST} are the most, and {BYTES} of all lists together");
            return walk.fault(at, format!("a list of {length} bytes: {most}"));
        }
        let mut inside = walk.inside(list, start);
        lists::front(&mut inside)
            .and_then(|()| inside.end("the list"))
            .map_err(|f| f.within(&format!("the list of {name}")))?;
        self.oxids.insert(oxid);
        Ok(oxid)
    }

    fn object(&mut self, walk: &mut Walk, name: &str) -> Walked<u64> {
        let start = walk.place();
        let oid = nonzero(walk, &format!("the OID of {name}"))?;
        let at = walk.place();
        let oxid = walk.u64(format_args!("the exporter of {name}"))?;
        if !self.oxids.contains(&oxid) {
            return walk.fault(at, format!("{name} is of no live exporter: {oxid:#018x}"));
        }
        let at = walk.place();
        let no_ping = match walk.array(format_args!("the no-ping mark of {name}"))? {
            [0] => false,
            [1] => true,
            [n] => return walk.fault(at, format!("the no-ping mark of {name} is {n}, not 0 or 1")),
        };
        self.heard(walk, &format!("the time when {name} was heard"), no_ping)?;
        self.oids.insert(oid, start);
        Ok(oid)
    }

    fn interface(&mut self, walk: &mut Walk, name: &str) -> Walked<Guid> {
        let ipid = self.ipid(walk, &format!("the IPID of {name}"))?;
        walk.take(16, format_args!("the IID of {name}"))?;
        let at = walk.place();
        let oid = walk.u64(format_args!("the object of {name}"))?;
        if !self.oids.contains_key(&oid) {
            return walk.fault(at, format!("{name} is of no live object: {oid:#018x}"));
        }
        let at = walk.place();
        let counts = walk.take(36, format_args!("the nine counts of {name}"))?;
        if counts.iter().all(|b| *b == 0) {
            return walk.fault(at, format!("{name} has no references"));
        }
        self.served.insert(oid);
        Ok(ipid)
    }

    fn set(&mut self, walk: &mut Walk, name: &str) -> Walked<u64> {
        let at = walk.place();
        let number = nonzero(walk, &format!("the number of {name}"))?;
        if number >= self.next_set {
            let rule = format!(
                "{name} has the number {number}, and the next set is {}",
                self.next_set
            );
            return walk.fault(at, rule);
        }
        walk.u16(format_args!("the sequence number of {name}"))?;
        self.heard(walk, &format!("the time when {name} was pinged"), false)?;
        section(walk, OBJECTS, "member", |walk, member| {
            let at = walk.place();
            let oid = walk.u64(member)?;
            match self.oids.contains_key(&oid) {
                true => Ok(oid),
                false => walk.fault(at, format!("{member} is no live object: {oid:#018x}")),
            }
        })
        .map_err(|f| f.within(name))?;
        Ok(number)
    }

    /// An IPID, of an interface or a remote unknown: not nil, and none before it is the same.
    fn ipid(&mut self, walk: &mut Walk, what: &str) -> Walked<Guid> {
        let at = walk.place();
        let ipid = walk.array(what)?;
        match self.ipids.insert(ipid) {
            _ if ipid == [0; 16] => walk.fault(at, format!("{what} is zero")),
            false => walk.fault(at, format!("{what} is that of another entry too")),
            true => Ok(Guid(ipid)),
        }
    }

    /// A time that is not above the clock, and of what is pinged less than the silence below it.
    fn heard(&self, walk: &mut Walk, what: &str, no_ping: bool) -> Walked<()> {
        let (at, clock) = (walk.place(), self.clock);
        let time = walk.u64(what)?;
        match clock.checked_sub(time) {
            None => walk.fault(
                at,
                format!("{what} is {time}, above the clock, which is {clock}"),
            ),
            Some(silent) if silent >= SILENCE && !no_ping => walk.fault(
                at,
                format!(
                    "{what} is {time}, {SILENCE} seconds or more below the clock, which is {clock}"
                ),
            ),
            Some(_) => Ok(()),
        }
    }

    /// Each object has an interface.
    fn all_served(&self, walk: &Walk) -> Walked<()> {
        let bare = self.oids.iter().find(|(oid, _)| !self.served.contains(oid));
        match bare {
            Some((oid, at)) => walk.fault(*at, format!("object {oid:#018x} has no interface")),
            None => Ok(()),
        }
    }
}

fn nonzero(walk: &mut Walk, what: &str) -> Walked<u64> {
    let at = walk.place();
    match walk.u64(what)? {
        0 => walk.fault(at, format!("{what} is zero")),
        id => Ok(id),
    }
}
