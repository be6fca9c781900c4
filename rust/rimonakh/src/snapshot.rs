//! What a snapshot holds, as typed entries.

use crate::{list, Guid, Oid, Oxid, Result, SecurityBinding, SetId, StringBinding, Table};
use alloc::vec::Vec;
use core::fmt;

/// The entries of a snapshot, each kind rising by its identifier.
///
/// ```
/// use rimonakh::{list, Error, Guid, Oid, Oxid, Snapshot, Table};
///
/// let mut table = Table::new(1000);
/// table.enter_exporter(Oxid(1), Guid([1; 16]), &list::of(&[(7, "10.1.4.20[49500]")], &[])?)?;
/// table.enter_object(Oid(2), Oxid(1), Guid([2; 16]), Guid([3; 16]), 5, false)?;
/// table.clock(1100)?;
///
/// let snapshot = Snapshot::read(&table.snapshot()?)?;
/// assert!(snapshot.exporters[0].strings().all(|binding| binding.address == "10.1.4.20[49500]"));
/// assert_eq!(snapshot.clock - snapshot.objects[0].heard, 100);
/// assert_eq!(snapshot.interfaces[0].counts(), [5, 0, 0, 0, 0, 0, 0, 0, 0]);
/// assert_eq!(Snapshot::read(&[2, 0]), Err(Error::NoSnapshot));
/// # Ok::<(), Error>(())
/// ```
#[derive(Clone, Debug, Default, PartialEq, Eq)]
pub struct Snapshot {
    /// The table's clock, in seconds.
    pub clock: u64,
    /// The number that the next ping set gets.
    pub next_set: SetId,
    /// The exporters.
    pub exporters: Vec<Exporter>,
    /// The objects.
    pub objects: Vec<Object>,
    /// The interfaces.
    pub interfaces: Vec<Interface>,
    /// The ping sets.
    pub sets: Vec<Set>,
}

/// An exporter with its binding list.
#[derive(Clone, PartialEq, Eq)]
pub struct Exporter {
    /// Its number.
    pub oxid: Oxid,
    /// The IPID of its remote unknown.
    pub unknown: Guid,
    list: Vec<u8>,
}

/// Shows the bindings of its list.
impl fmt::Debug for Exporter {
    fn fmt(&self, f: &mut fmt::Formatter<'_>) -> fmt::Result {
        f.debug_struct("Exporter")
            .field("oxid", &self.oxid)
            .field("unknown", &self.unknown)
            .field("strings", &self.strings().collect::<Vec<_>>())
            .field("securities", &self.securities().collect::<Vec<_>>())
            .finish()
    }
}

impl Exporter {
    /// The bytes of its list.
    pub fn list(&self) -> &[u8] {
        &self.list
    }

    /// The string bindings of its list.
    pub fn strings(&self) -> impl Iterator<Item = StringBinding<'_>> {
        list::strings(&self.list).expect("the list of a loaded exporter")
    }

    /// The security bindings of its list.
    pub fn securities(&self) -> impl Iterator<Item = SecurityBinding<'_>> {
        list::securities(&self.list).expect("the list of a loaded exporter")
    }
}

/// An object of an exporter.
#[derive(Clone, Copy, Debug, PartialEq, Eq)]
pub struct Object {
    /// Its number.
    pub oid: Oid,
    /// The exporter that it is of.
    pub exporter: Oxid,
    /// Whether it stays without pings.
    pub no_ping: bool,
    /// The clock when it was last heard.
    pub heard: u64,
}

/// An interface of an object, with its references.
#[derive(Clone, Copy, Debug, PartialEq, Eq)]
pub struct Interface {
    /// Its identifier.
    pub ipid: Guid,
    /// What it offers.
    pub iid: Guid,
    /// The object that it is of.
    pub object: Oid,
    /// The public references.
    pub public: u32,
    /// The private references of clients 0 to 7.
    pub private: [u32; 8],
}

impl Interface {
    /// The nine counts: the public one, then those of the clients.
    pub fn counts(&self) -> [u32; 9] {
        let [a, b, c, d, e, f, g, h] = self.private;
        [self.public, a, b, c, d, e, f, g, h]
    }
}

/// A ping set.
#[derive(Clone, Debug, PartialEq, Eq)]
pub struct Set {
    /// Its number.
    pub number: SetId,
    /// The sequence number of its last complex ping.
    pub sequence: u16,
    /// The clock at its last ping.
    pub pinged: u64,
    /// The objects in it, rising.
    pub members: Vec<Oid>,
}

impl Snapshot {
    /// The entries of a snapshot: of bytes that a table loads, and no others. It loads them: its stack is 150 KiB at most.
    pub fn read(bytes: &[u8]) -> Result<Snapshot> {
        Table::new(0).load_snapshot(bytes)?;
        let mut rest = Rest(bytes);
        let [_, _] = rest.take(); // the form's number
        Ok(Snapshot {
            clock: rest.u64(),
            next_set: SetId(rest.u64()),
            exporters: rest.section(Rest::exporter),
            objects: rest.section(Rest::object),
            interfaces: rest.section(Rest::interface),
            sets: rest.section(Rest::set),
        })
    }

    /// The bytes of all binding lists together.
    pub fn list_bytes(&self) -> usize {
        self.exporters.iter().map(|x| x.list.len()).sum()
    }
}

/// The bytes that are not read yet, of a snapshot that was loaded: no field of it is cut.
struct Rest<'a>(&'a [u8]);

impl Rest<'_> {
    fn take<const N: usize>(&mut self) -> [u8; N] {
        let (front, rest) = self.0.split_first_chunk().expect("a loaded snapshot");
        self.0 = rest;
        *front
    }

    fn u16(&mut self) -> u16 {
        u16::from_le_bytes(self.take())
    }

    fn u32(&mut self) -> u32 {
        u32::from_le_bytes(self.take())
    }

    fn u64(&mut self) -> u64 {
        u64::from_le_bytes(self.take())
    }

    /// A number of entries, then these.
    fn section<T>(&mut self, one: impl Fn(&mut Self) -> T) -> Vec<T> {
        (0..self.u16()).map(|_| one(self)).collect()
    }

    fn exporter(&mut self) -> Exporter {
        Exporter {
            oxid: Oxid(self.u64()),
            unknown: Guid(self.take()),
            list: self.section(|rest| rest.take::<1>()[0]),
        }
    }

    fn object(&mut self) -> Object {
        Object {
            oid: Oid(self.u64()),
            exporter: Oxid(self.u64()),
            no_ping: self.take() == [1],
            heard: self.u64(),
        }
    }

    fn interface(&mut self) -> Interface {
        Interface {
            ipid: Guid(self.take()),
            iid: Guid(self.take()),
            object: Oid(self.u64()),
            public: self.u32(),
            private: [(); 8].map(|()| self.u32()),
        }
    }

    fn set(&mut self) -> Set {
        Set {
            number: SetId(self.u64()),
            sequence: self.u16(),
            pinged: self.u64(),
            members: self.section(|rest| Oid(rest.u64())),
        }
    }
}
