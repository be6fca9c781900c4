//! What a recorder writes is read back: each call with its fields, its answer and its bytes. Bytes that a replay refuses are refused
//! by the same number, and no others.

mod making;

use making::guid;
use rimonakh::limits::MOST_RECORDS;
use rimonakh::recording::{
    Answer, Call, Oids, Protocols, Record, Recording, Records, Results, Room,
};
use rimonakh::{list, Error, Guid, Item, Oid, Oxid, Recorder, SetId, Table};
use std::collections::BTreeSet;

const DAY: &[u8] = include_bytes!("../../../examples/day.recording");
const REFERENCE: &[u8] = include_bytes!("../../../crates/objref/stdin");

/// What the calls below are given.
struct Given {
    list: Vec<u8>,
    items: Vec<u8>,
    oids: Vec<u8>,
    protocols: Vec<u8>,
    snapshot: Vec<u8>,
}

impl Given {
    fn new() -> Given {
        let item = |n| Item {
            ipid: guid(n),
            public: 2,
            private: 1,
        };
        Given {
            list: list::of(&[(7, "10.1.4.20[49500]"), (9, "a")], &[]).unwrap(),
            items: [item(4), item(9)].map(Item::to_bytes).concat(),
            oids: Oids::bytes(&[Oid(1), Oid(u64::MAX)]),
            protocols: Protocols::bytes(&[9, 0xFFFF]),
            snapshot: Table::new(5).snapshot().unwrap(),
        }
    }

    /// A day of calls: those that enter, count and ping, then those that look and end. Some are refused.
    fn day(&self) -> Vec<Call<'_>> {
        [self.morning(), self.evening()].concat()
    }

    fn morning(&self) -> Vec<Call<'_>> {
        let (items, room) = (&self.items[..], Room(2));
        let (client, ipid, public, private) = (6, guid(4), 7, 8);
        let exporter = |oxid, list| Call::EnterExporter {
            oxid,
            unknown: guid(1),
            list,
        };
        let object = |oid, ipid, no_ping| Call::EnterObject {
            oid,
            oxid: Oxid(1),
            ipid,
            iid: guid(3),
            public,
            no_ping,
        };
        let ping = |set| Call::ComplexPing {
            set,
            sequence: 0x0102,
            adds: Oids::from_bytes(&self.oids[..8]).unwrap(),
            deletes: Oids::from_bytes(&self.oids[8..]).unwrap(),
        };
        vec![
            exporter(Oxid(1), &self.list),
            exporter(Oxid(2), &self.list[1..]),
            object(Oid(1), guid(2), false),
            object(Oid(2), ipid, true),
            Call::EnterInterface {
                oid: Oid(2),
                ipid: guid(5),
                iid: guid(3),
                public,
            },
            Call::Add {
                client,
                ipid,
                public,
                private,
            },
            Call::AddList {
                client,
                items,
                room,
            },
            Call::ReleaseList {
                client,
                items,
                room,
            },
            Call::ReleaseList {
                client,
                items,
                room: Room(1),
            },
            Call::Release {
                client,
                ipid,
                public: 1,
                private: 9,
            },
            ping(SetId(0)),
            ping(SetId(9)),
            Call::SimplePing { set: SetId(1) },
        ]
    }

    fn evening(&self) -> Vec<Call<'_>> {
        let (oxid, room) = (Oxid(1), Room(2048));
        let protocols = Protocols::from_bytes(&self.protocols).unwrap();
        vec![
            Call::Resolve { oxid, room },
            Call::Resolve {
                oxid,
                room: Room(0),
            },
            Call::ResolveFiltered {
                oxid,
                protocols,
                room,
            },
            Call::Census {},
            Call::Members { set: SetId(1) },
            Call::NextStop {
                reference: REFERENCE,
            },
            Call::NextStop { reference: &[] },
            Call::WriteSnapshot { room },
            Call::DropClient { client: 6 },
            Call::DropClient { client: 8 },
            Call::Clock { time: 1360 },
            Call::Clock { time: 1 },
            Call::RemoveExporter { oxid },
            Call::LoadSnapshot {
                snapshot: &self.snapshot,
            },
            Call::LoadSnapshot { snapshot: &[2] },
            Call::Reset { time: u64::MAX },
        ]
    }
}

fn read(bytes: &[u8]) -> Vec<Record<'_>> {
    let records = Records::read(bytes).unwrap();
    assert_eq!(records.len(), records.clone().count());
    records.collect()
}

/// The recording of the day.
fn recorded(given: &Given) -> Recorder {
    let mut day = Recorder::new(1000);
    for call in given.day() {
        let _ = day.perform(&call); // refused or not
    }
    day
}

#[test]
fn every_call() {
    let given = Given::new();
    let day = recorded(&given);
    let found = read(day.recording());
    let calls: Vec<Call> = found.iter().map(|r| r.call).collect();
    let told = [vec![Call::Reset { time: 1000 }], given.day()].concat();
    assert_eq!(calls, told);
    let codes: BTreeSet<u8> = calls.iter().map(Call::code).collect();
    assert!(codes.into_iter().eq(0..20));
    let numbers = found.iter().map(|r| r.answer.number);
    let refusals: Vec<u64> = numbers.filter(|n| *n != 0).collect();
    assert_eq!(refusals, [3, 15, 11, 15, 13, 20, 2, 23]);
    // the library finds the same answers, results and bytes in it
    let outcome = Table::new(0).replay(day.recording()).unwrap();
    assert_eq!(outcome.differs, None);
    let again: Recording = found.into_iter().collect();
    assert_eq!(again.bytes(), day.recording());
}

#[test]
fn results() {
    let given = Given::new();
    let day = recorded(&given);
    let found = read(day.recording());
    let of = |code: u8| found.iter().find(|r| r.call.code() == code).unwrap();
    let told = |code: u8| (of(code).answer.results, of(code).shown);
    let counts = |exporters, objects, interfaces, sets| Results::Counts {
        exporters,
        objects,
        interfaces,
        sets,
    };
    let length = given.list.len() as u64;
    let resolved = Results::Resolved {
        length,
        unknown: guid(1),
    };
    let released = Results::Released {
        public: 1,
        private: 8,
        interfaces: 0,
        objects: 0,
    };
    let pinged = Results::Pinged {
        set: SetId(1),
        backoff: 0,
    };
    let (snapshot, length) = match told(18) {
        (Results::Length { length }, shown) => (shown, length),
        other => panic!("{other:?}"),
    };
    assert_eq!(snapshot.len() as u64, length);
    assert_eq!(Table::new(0).load_snapshot(snapshot), Ok(()));
    assert_eq!(told(6), (released, &[][..]));
    assert_eq!(told(8), (Results::Done {}, &[0, 6][..]));
    let Call::AddList { items, .. } = of(8).call else {
        panic!("{:?}", of(8));
    };
    let ipids: Vec<Guid> = Item::all(items).map(|item| item.ipid).collect();
    assert_eq!(ipids, [guid(4), guid(9)]);
    assert_eq!(Item::all(&items[1..]).len(), 1);
    assert_eq!(told(11), (pinged, &[][..]));
    assert_eq!(told(12), (counts(0, 1, 1, 1), &[][..]));
    assert_eq!(told(13), (resolved, &given.list[..]));
    assert_eq!(told(15), (counts(1, 2, 3, 1), &[][..]));
    assert_eq!(told(16).0, Results::Members { members: 1 });
}

/// Another resolver's answers: any numbers, and bytes where this one shows none.
#[test]
fn any_answers() {
    let call = Call::ComplexPing {
        set: SetId(1),
        sequence: 1,
        adds: Oids::default(),
        deletes: Oids::default(),
    };
    let results = Results::Pinged {
        set: SetId(u64::MAX),
        backoff: 1 << 40,
    };
    let number = u64::MAX;
    let record = Record {
        call,
        answer: Answer { number, results },
        shown: &[1, 2, 3],
    };
    let recording: Recording = [record; 2].into_iter().collect();
    assert_eq!(read(recording.bytes()), [record; 2]);
    let outcome = Table::new(0).replay(recording.bytes()).unwrap();
    assert_eq!(outcome.differs, Some(1));
}

#[test]
fn in_words() {
    let given = Given::new();
    let day = recorded(&given);
    let words = |r: &Record| format!("{}: {}", r.call, r.answer);
    let found: Vec<String> = read(day.recording()).iter().map(words).collect();
    for line in [
        "reset, time 1000: 0",
        "enter exporter, OXID 0x0000000000000001, IPID {00000001-0000-0000-0000-000000000000}, 50 bytes: 0",
        "add list, client 6, a buffer of 2 bytes, 48 bytes: 0",
        "release, client 6, IPID {00000004-0000-0000-0000-000000000000}, public 1, private 9: \
         0, taken public 1, private 8, interfaces that went 0, objects 0",
        "complex ping, set 0, sequence 258, a list of 1, a list of 1: 0, set 1, backoff 0",
        "resolve, OXID 0x0000000000000001, a buffer of 0 bytes: 15, a list of 0 bytes, IPID {00000000-0000-0000-0000-000000000000}",
        "census: 0, exporters 1, objects 2, interfaces 3, sets 1",
        "load snapshot, 26 bytes: 0",
    ] {
        assert!(found.iter().any(|found| found == line), "{line}\n{found:#?}");
    }
}

/// The day of examples/day.c: it is read, written and performed to the same bytes.
#[test]
fn the_stored_day() {
    let found = read(DAY);
    assert_eq!(found.len(), 40);
    let again: Recording = found.iter().copied().collect();
    assert_eq!(again.bytes(), DAY);
    assert_eq!(format!("{again:?}"), "Recording { records: 40 }");
    let shown = format!("{:?}", Records::read(DAY).unwrap());
    assert_eq!(shown, format!("{found:?}"));
    let Call::Reset { time } = found[0].call else {
        panic!("{:?}", found[0]);
    };
    let mut day = Recorder::new(time);
    for record in &found[1..] {
        let number = day.perform(&record.call).err().map_or(0, Error::number);
        assert_eq!(u64::from(number), record.answer.number);
    }
    assert_eq!(day.recording(), DAY);
}

/// The reader answers what a replay does; whether it refuses.
fn agrees(table: &mut Table, bytes: &[u8]) -> bool {
    let replayed = table.replay(bytes).err();
    match Records::read(bytes) {
        Ok(records) => {
            assert_eq!(replayed, None);
            assert!(records.collect::<Recording>().bytes() == bytes);
            false
        }
        Err(fault) => {
            assert_eq!(Some(fault.error), replayed, "{fault}");
            assert!(fault.at <= bytes.len() && !fault.to_string().is_empty());
            true
        }
    }
}

#[test]
fn damaged() {
    let mut table = Table::new(0);
    let given = Given::new();
    for whole in [DAY, recorded(&given).recording()] {
        assert!(!agrees(&mut table, whole));
        assert!((0..whole.len()).all(|n| agrees(&mut table, &whole[..n])));
        assert!(agrees(&mut table, &[whole, &[0]].concat()));
        for at in 0..whole.len() {
            for change in [1, 0x80, 0xFF, whole[at]] {
                let mut changed = whole.to_vec();
                changed[at] ^= change;
                agrees(&mut table, &changed);
            }
        }
    }
}

/// The sections of all records, five to a record.
fn sections(recording: &[u8]) -> Vec<Vec<u8>> {
    let mut rest = &recording[8..];
    let mut found = Vec::new();
    while let Some((size, behind)) = rest.split_first_chunk() {
        let (section, behind) = behind.split_at(u64::from_le_bytes(*size) as usize);
        found.push(section.to_vec());
        rest = behind;
    }
    found
}

/// Each section of each record longer, shorter, empty, and with another first or last byte.
#[test]
fn of_another_form() {
    let mut table = Table::new(0);
    let day = recorded(&Given::new());
    let whole = sections(day.recording());
    let mut refused = 0;
    for k in 0..whole.len() {
        let other: [fn(&mut Vec<u8>); 7] = [
            |s| s.push(0),
            |s| s.extend([0; 8]),
            |s| s.truncate(s.len().saturating_sub(1)),
            Vec::clear,
            |s| s.iter_mut().take(1).for_each(|b| *b = 20),
            |s| s.iter_mut().rev().take(1).for_each(|b| *b = 1),
            |s| s.iter_mut().rev().take(1).for_each(|b| *b = 2),
        ];
        for change in other {
            let mut sections = whole.clone();
            change(&mut sections[k]);
            let mut bytes = day.records().to_le_bytes().to_vec();
            for section in sections {
                bytes.extend((section.len() as u64).to_le_bytes());
                bytes.extend(section);
            }
            refused += usize::from(agrees(&mut table, &bytes));
        }
    }
    assert!(refused > 2 * whole.len(), "{refused}");
}

#[test]
fn too_many() {
    let call = Call::Census {};
    let mut long = Recorder::new(0);
    while long.records() < MOST_RECORDS {
        let _ = long.perform(&call);
    }
    assert_eq!(read(long.recording()).len() as u64, MOST_RECORDS);
    let _ = long.perform(&call);
    let fault = Records::read(long.recording()).unwrap_err();
    assert_eq!((fault.error, fault.at), (Error::TooMany, 0));
    assert_eq!(fault.to_string(), "16385 records, where 16384 are the most");
}
