//! What is compared with the model: the library, and plain Rust over the same array and store.

use crate::call::{counts, done, halves, released, told, written, Answer, Call, Calls, Reply};
use model::Guid;
use plain::table as p;
use rimonakh::{ffi, Oid, Oxid, Recorder, SetId, Stop, Table};

pub trait Subject {
    const NAME: &'static str;

    fn perform(words: &mut [u64], store: &mut [u8], call: &Call) -> Reply;
}

/// The crate's table over lent memory.
struct Lent<'a>(Table<&'a mut [u64], &'a mut [u8]>);

/// The crate's recorder, which has the same calls.
pub struct Recorded(Recorder);

fn by_kind(c: rimonakh::Counts) -> [usize; 4] {
    [c.exporters, c.objects, c.interfaces, c.sets]
}

fn resolved(r: rimonakh::Resolved) -> [u64; 3] {
    let [low, high] = halves(r.unknown.0);
    [r.length as u64, low, high]
}

fn oids(ids: &[u64]) -> Vec<Oid> {
    ids.iter().copied().map(Oid).collect()
}

macro_rules! by_the_crate {
    ($($side:ty),+) => {$(
        impl Calls for $side {
            fn reset(&mut self, time: u64) -> Answer<0> {
                Ok(done(self.0.reset(time)?))
            }

            fn enter_exporter(&mut self, oxid: u64, unknown: Guid, list: &[u8]) -> Answer<0> {
                let unknown = rimonakh::Guid(unknown);
                Ok(done(self.0.enter_exporter(Oxid(oxid), unknown, list)?))
            }

            fn remove_exporter(&mut self, oxid: u64) -> Answer<0> {
                Ok(done(self.0.remove_exporter(Oxid(oxid))?))
            }

            fn enter_object(
                &mut self,
                oid: u64,
                oxid: u64,
                ipid: Guid,
                iid: Guid,
                public: u32,
                no_ping: bool,
            ) -> Answer<0> {
                let (oid, oxid) = (Oid(oid), Oxid(oxid));
                let [ipid, iid] = [ipid, iid].map(rimonakh::Guid);
                let entered = self.0.enter_object(oid, oxid, ipid, iid, public, no_ping);
                Ok(done(entered?))
            }

            fn enter_interface(
                &mut self,
                oid: u64,
                ipid: Guid,
                iid: Guid,
                public: u32,
            ) -> Answer<0> {
                let [ipid, iid] = [ipid, iid].map(rimonakh::Guid);
                Ok(done(self.0.enter_interface(Oid(oid), ipid, iid, public)?))
            }

            fn add(&mut self, client: u32, ipid: Guid, public: u32, private: u32) -> Answer<0> {
                let ipid = rimonakh::Guid(ipid);
                Ok(done(self.0.add(client, ipid, public, private)?))
            }

            fn release(&mut self, client: u32, ipid: Guid, public: u32, private: u32) -> Answer<4> {
                let r = self.0.release(client, rimonakh::Guid(ipid), public, private)?;
                let went = [r.interface_went, r.object_went];
                Ok(released(r.public, r.private, went))
            }

            fn drop_client(&mut self, client: u32) -> Answer<0> {
                Ok(done(self.0.drop_client(client)?))
            }

            fn add_list(&mut self, client: u32, room: usize, items: &[u8]) -> Answer<0> {
                written(room, |out| self.0.add_list(client, items, out), |()| [])
            }

            fn release_list(&mut self, client: u32, room: usize, items: &[u8]) -> Answer<0> {
                written(room, |out| self.0.release_list(client, items, out), |()| [])
            }

            fn simple_ping(&mut self, set: u64) -> Answer<0> {
                Ok(done(self.0.simple_ping(SetId(set))?))
            }

            fn complex_ping(
                &mut self,
                set: u64,
                sequence: u16,
                adds: &[u64],
                deletes: &[u64],
            ) -> Answer<2> {
                let (set, adds, deletes) = (SetId(set), oids(adds), oids(deletes));
                let p = self.0.complex_ping(set, sequence, &adds, &deletes)?;
                Ok(told([p.set.0, p.backoff.into()]))
            }

            fn clock(&mut self, time: u64) -> Answer<4> {
                Ok(counts(by_kind(self.0.clock(time)?)))
            }

            fn resolve(&mut self, oxid: u64, room: usize) -> Answer<3> {
                written(room, |out| self.0.resolve(Oxid(oxid), out), resolved)
            }

            fn resolve_filtered(
                &mut self,
                oxid: u64,
                room: usize,
                protocols: &[u16],
            ) -> Answer<3> {
                let oxid = Oxid(oxid);
                let filtered = |out: &mut [u8]| self.0.resolve_filtered(oxid, protocols, out);
                written(room, filtered, resolved)
            }

            fn census(&mut self) -> Answer<4> {
                Ok(counts(by_kind(self.0.census()?)))
            }

            fn members(&mut self, set: u64) -> Answer<1> {
                Ok(told([self.0.members(SetId(set))? as u64]))
            }

            fn next_stop(&mut self, reference: &[u8]) -> Answer<1> {
                Ok(match self.0.next_stop(reference)? {
                    Stop::Exporter(list) => ([1], list.to_vec()),
                    Stop::Own(list) => ([0], list.to_vec()),
                })
            }

            fn write_snapshot(&mut self, room: usize) -> Answer<1> {
                written(room, |out| self.0.write_snapshot(out), |n| [n as u64])
            }

            fn load_snapshot(&mut self, snapshot: &[u8]) -> Answer<0> {
                Ok(done(self.0.load_snapshot(snapshot)?))
            }
        }
    )+};
}

by_the_crate!(Lent<'_>, Recorded);

pub struct Library;

impl Subject for Library {
    const NAME: &'static str = "library";

    fn perform(words: &mut [u64], store: &mut [u8], call: &Call) -> Reply {
        let reply = call.by(&mut Lent(Table::over(&mut *words, &mut *store)));
        if reply.number != 0 {
            let zeros = raw(words, store, call).iter().all(|value| *value == 0);
            assert!(zeros, "a refusal with other results than zero");
        }
        reply
    }
}

impl Recorded {
    /// An empty table, whose reset is recorded.
    pub fn new(time: u64) -> Recorded {
        Recorded(Recorder::new(time))
    }

    pub fn recording(&self) -> Vec<u8> {
        self.0.recording().to_vec()
    }
}

/// The numbers of a call as the archive gives them, whatever its answer is.
fn raw(words: &mut [u64], store: &mut [u8], call: &Call) -> Vec<u64> {
    let (w, n) = (words.as_mut_ptr(), words.len());
    let (s, m) = (store.as_mut_ptr(), store.len());
    let mut out = vec![0; call.room()];
    let (b, room) = (out.as_mut_ptr(), out.len());
    // SAFETY: each pointer and length are of one slice, and the slices do not overlap.
    unsafe {
        match *call {
            Call::Release {
                client,
                ipid,
                public,
                private,
            } => {
                let [low, high] = halves(ipid);
                let r = ffi::rimonakh_release(w, n, s, m, client, low, high, public, private);
                [r.public, r.private, r.interfaces, r.objects]
                    .map(u64::from)
                    .to_vec()
            }
            Call::ComplexPing {
                set,
                sequence,
                ref adds,
                ref deletes,
            } => {
                let (a, d) = (adds.as_ptr(), deletes.as_ptr());
                let (j, k) = (adds.len(), deletes.len());
                let r = ffi::rimonakh_complex_ping(w, n, s, m, set, sequence, a, j, d, k);
                vec![r.pinged.set.0, r.pinged.backoff.into()]
            }
            Call::Clock { time } => of_counts(ffi::rimonakh_clock(w, n, s, m, time)),
            Call::Census {} => of_counts(ffi::rimonakh_census(w, n, s, m)),
            Call::Members { set } => vec![ffi::rimonakh_members(w, n, s, m, set).count as u64],
            Call::Resolve { oxid, .. } => of_list(ffi::rimonakh_resolve(w, n, s, m, oxid, b, room)),
            Call::ResolveFiltered {
                oxid,
                ref protocols,
                ..
            } => {
                let (p, k) = (protocols.as_ptr(), protocols.len());
                of_list(ffi::rimonakh_resolve_filtered(
                    w, n, s, m, oxid, p, k, b, room,
                ))
            }
            Call::WriteSnapshot { .. } => {
                vec![ffi::rimonakh_write_snapshot(w, n, s, m, b, room).length as u64]
            }
            Call::NextStop { ref reference } => {
                let r = ffi::rimonakh_next_stop(w, n, s, m, reference.as_ptr(), reference.len());
                vec![r.in_store.into(), r.from as u64, r.to as u64]
            }
            _ => vec![],
        }
    }
}

fn of_counts(r: ffi::Counted) -> Vec<u64> {
    by_kind(r.counts).map(|n| n as u64).to_vec()
}

fn of_list(r: ffi::ResolvedList) -> Vec<u64> {
    resolved(r.resolved).to_vec()
}

pub struct Plain;

impl Subject for Plain {
    const NAME: &'static str = "plain Rust";

    fn perform(words: &mut [u64], store: &mut [u8], call: &Call) -> Reply {
        call.by(&mut Careful { words, store })
    }
}

/// Plain Rust's table.
struct Careful<'a> {
    words: &'a mut [u64],
    store: &'a mut [u8],
}

fn guid(g: Guid) -> plain::Guid {
    let [low, high] = halves(g);
    plain::Guid { low, high }
}

fn of(c: p::Counts) -> [usize; 4] {
    [c.exporters, c.objects, c.interfaces, c.sets]
}

fn found((length, unknown): (usize, plain::Guid)) -> [u64; 3] {
    [length as u64, unknown.low, unknown.high]
}

impl Careful<'_> {
    fn count_list(&mut self, back: bool, client: u32, room: usize, items: &[u8]) -> Answer<0> {
        let Careful { words, store } = self;
        let counted = |out: &mut [u8]| p::count_list(words, store, back, client, items, out);
        written(room, counted, |()| [])
    }
}

impl Calls for Careful<'_> {
    fn reset(&mut self, time: u64) -> Answer<0> {
        p::reset(self.words, self.store, time).map(done)
    }

    fn enter_exporter(&mut self, oxid: u64, unknown: Guid, list: &[u8]) -> Answer<0> {
        p::enter_exporter(self.words, self.store, oxid, guid(unknown), list).map(done)
    }

    fn remove_exporter(&mut self, oxid: u64) -> Answer<0> {
        p::remove_exporter(self.words, self.store, oxid).map(done)
    }

    fn enter_object(
        &mut self,
        oid: u64,
        oxid: u64,
        ipid: Guid,
        iid: Guid,
        public: u32,
        no_ping: bool,
    ) -> Answer<0> {
        let Careful { words, store } = self;
        let (ipid, iid) = (guid(ipid), guid(iid));
        p::enter_object(words, store, oid, oxid, ipid, iid, public, no_ping).map(done)
    }

    fn enter_interface(&mut self, oid: u64, ipid: Guid, iid: Guid, public: u32) -> Answer<0> {
        let (ipid, iid) = (guid(ipid), guid(iid));
        p::enter_interface(self.words, self.store, oid, ipid, iid, public).map(done)
    }

    fn add(&mut self, client: u32, ipid: Guid, public: u32, private: u32) -> Answer<0> {
        p::add(self.words, self.store, client, guid(ipid), public, private).map(done)
    }

    fn release(&mut self, client: u32, ipid: Guid, public: u32, private: u32) -> Answer<4> {
        let r = p::release(self.words, self.store, client, guid(ipid), public, private)?;
        let went = [r.interface_went, r.object_went];
        Ok(released(r.public, r.private, went))
    }

    fn drop_client(&mut self, client: u32) -> Answer<0> {
        p::drop_client(self.words, self.store, client).map(done)
    }

    fn add_list(&mut self, client: u32, room: usize, items: &[u8]) -> Answer<0> {
        self.count_list(false, client, room, items)
    }

    fn release_list(&mut self, client: u32, room: usize, items: &[u8]) -> Answer<0> {
        self.count_list(true, client, room, items)
    }

    fn simple_ping(&mut self, set: u64) -> Answer<0> {
        p::simple_ping(self.words, self.store, set).map(done)
    }

    fn complex_ping(
        &mut self,
        set: u64,
        sequence: u16,
        adds: &[u64],
        deletes: &[u64],
    ) -> Answer<2> {
        let pinged = p::complex_ping(self.words, self.store, set, sequence, adds, deletes);
        pinged.map(|set| told([set, 0]))
    }

    fn clock(&mut self, time: u64) -> Answer<4> {
        p::clock(self.words, self.store, time).map(|c| counts(of(c)))
    }

    fn resolve(&mut self, oxid: u64, room: usize) -> Answer<3> {
        let Careful { words, store } = self;
        written(room, |out| p::resolve(words, store, oxid, out), found)
    }

    fn resolve_filtered(&mut self, oxid: u64, room: usize, protocols: &[u16]) -> Answer<3> {
        let Careful { words, store } = self;
        let filtered = |out: &mut [u8]| p::resolve_filtered(words, store, oxid, protocols, out);
        written(room, filtered, found)
    }

    fn census(&mut self) -> Answer<4> {
        p::census(self.words, self.store).map(|c| counts(of(c)))
    }

    fn members(&mut self, set: u64) -> Answer<1> {
        p::member_count(self.words, self.store, set).map(|n| told([n as u64]))
    }

    fn next_stop(&mut self, reference: &[u8]) -> Answer<1> {
        p::next_stop(self.words, self.store, reference).map(|stop| match stop {
            p::Stop::Store(r) => ([1], self.store[r].to_vec()),
            p::Stop::Reference(r) => ([0], reference[r].to_vec()),
        })
    }

    fn write_snapshot(&mut self, room: usize) -> Answer<1> {
        let Careful { words, store } = self;
        let saved = |out: &mut [u8]| plain::snapshot::write(words, store, out);
        written(room, saved, |n| [n as u64])
    }

    fn load_snapshot(&mut self, snapshot: &[u8]) -> Answer<0> {
        plain::snapshot::load(self.words, self.store, snapshot).map(done)
    }
}
