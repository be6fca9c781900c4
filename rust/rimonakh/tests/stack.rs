//! Each function takes less stack than the header says: it is done by a thread that has so much, and a margin for what a thread of
//! Rust takes for itself.

mod making;

use making::{guid, nest};
use rimonakh::limits::{LONGEST_SNAPSHOT, MOST_EXTENSIONS, MOST_LEVELS, MOST_LISTED};
use rimonakh::{list, recording, Error, Extension, FragmentReader, Item, Oid, OrpcThis, Outcome};
use rimonakh::{Oxid, Part, Recorder, Reference, Result, SetId, Table};
use std::thread;

/// A table whose snapshot is the longest.
fn full() -> Table {
    let mut table = Table::new(1000);
    let list = list::of(&[(7, &"a".repeat(250))], &[]).unwrap();
    for x in 1..=16 {
        table.enter_exporter(Oxid(x), guid(x), &list).unwrap();
    }
    for o in 1..=128 {
        let (oid, oxid) = (Oid(o), Oxid(1 + o % 16));
        table
            .enter_object(oid, oxid, guid(100 + o), guid(1), 1, false)
            .unwrap();
        table
            .enter_interface(oid, guid(1000 + o), guid(1), 1)
            .unwrap();
    }
    let members: Vec<Oid> = (1..=128).map(Oid).collect();
    for _ in 0..32 {
        table.complex_ping(SetId(0), 1, &members, &[]).unwrap();
    }
    table
}

/// The bytes of stack that a thread of Rust takes for itself, at most.
const MARGIN: usize = 16 * 1024;

/// Runs it in a thread that has so many KiB of stack, and the margin.
fn within<T: Send + 'static>(kib: usize, call: impl FnOnce() -> T + Send + 'static) -> T {
    let thread = thread::Builder::new().stack_size(kib * 1024 + MARGIN);
    thread.spawn(call).unwrap().join().unwrap()
}

#[test]
fn a_load() {
    let snapshot = full().snapshot().unwrap();
    assert_eq!(snapshot.len(), LONGEST_SNAPSHOT);
    let bytes = snapshot.clone();
    let loads = move || {
        let mut table = Table::new(0);
        table.load_snapshot(&bytes).unwrap();
        table.snapshot().unwrap()
    };
    assert_eq!(within(150, loads), snapshot);
}

#[test]
fn every_other_call_on_a_table() {
    let calls: [fn(&mut Table) -> Result<()>; 13] = [
        |t| t.remove_exporter(Oxid(16)),
        |t| t.enter_exporter(Oxid(99), guid(99), &[0; 4]),
        |t| t.release(0, guid(1126), 1, 0).map(|_| ()),
        |t| t.release(0, guid(226), 1, 0).map(|_| ()),
        |t| t.enter_interface(Oid(1), guid(99_999), guid(1), 1),
        |t| t.enter_object(Oid(999), Oxid(1), guid(98), guid(1), 1, true),
        |t| t.add(7, guid(101), 1, 1).and(t.drop_client(7)),
        |t| t.add_list(0, &[1; 240], &mut [0; 10]),
        |t| t.release_list(0, &[1; 240], &mut [0; 10]),
        |t| {
            let items = vec![1; MOST_LISTED * Item::SIZE];
            t.release_list(0, &items, &mut vec![0; MOST_LISTED])
        },
        |t| {
            let oids = vec![Oid(3); MOST_LISTED];
            t.complex_ping(SetId(1), 2, &oids, &oids).map(|_| ())
        },
        |t| t.simple_ping(SetId(1)).and(t.members(SetId(1))).map(|_| ()),
        |t| {
            t.resolve(Oxid(1), &mut [0; 512])
                .and(t.census())
                .map(|_| ())
        },
    ];
    let mut table = full();
    for call in calls {
        table = within(12, move || {
            call(&mut table).unwrap();
            table
        });
    }
    let snapshot = within(12, move || {
        assert!(table.snapshot().unwrap().len() > 60_000);
        assert_eq!(table.clock(100_000).unwrap().sets, 32);
        table.reset(7).unwrap();
        table.snapshot().unwrap()
    });
    assert_eq!(snapshot.len(), 26);
}

#[test]
fn a_resolve_by_protocols() {
    let table = full();
    for protocols in [vec![7], (0..=u16::MAX).skip(1).collect()] {
        let table = table.clone();
        let length = within(16, move || {
            let resolved = table.resolve_filtered(Oxid(1), &protocols, &mut [0; 512]);
            resolved.unwrap().length
        });
        assert_eq!(length, 512);
    }
}

#[test]
fn every_other_function() {
    let nest = nest(MOST_LEVELS).unwrap();
    let length = nest.len();
    let read = within(4, move || {
        let read = Reference::read(&nest).unwrap();
        let element = Reference::locate_element(&nest, 0).unwrap();
        let mut bytes = vec![0; nest.len()];
        let length = read.write(&[0; 4], &nest[element], &mut bytes).unwrap();
        assert_eq!(bytes, nest);
        let mut reader = FragmentReader::new(64);
        reader.push(&bytes);
        assert_eq!(reader.finish(&mut []), Err(Error::Layout)); // an extended one is not read in fragments
        length
    });
    assert_eq!(read, length);
    let extensions = [Extension {
        id: guid(1),
        pointer: 1,
        data: &[1, 2, 3],
    }; MOST_EXTENSIONS];
    within(4, move || {
        let mut bytes = vec![0; 2048];
        let this = OrpcThis {
            minor: 7,
            flags: 0,
            causality: guid(1),
        };
        this.write_with(1, 1, &extensions, &mut bytes).unwrap();
        assert_eq!(OrpcThis::extension(&bytes, 31).unwrap(), extensions[31]);
        assert_eq!(
            OrpcThis::extensions(&bytes).unwrap().count(),
            MOST_EXTENSIONS
        );
        let list = list::of(&[(7, "a"), (8, "b")], &[(10, 0, "c")]).unwrap();
        assert_eq!(list::locate(&list, Part::Security, 0), Ok(18..26));
    });
}

/// Every call on a full table, with the longest lists and buffers.
fn recorded() -> Vec<u8> {
    let full = full();
    let snapshot = full.snapshot().unwrap();
    let mut day = Recorder::over(full).unwrap();
    let (ipid, oids) = (guid(101), vec![Oid(1); MOST_LISTED]);
    let item = Item {
        ipid,
        public: 1,
        private: 1,
    };
    let (items, mut buffer) = (item.to_bytes().repeat(MOST_LISTED), vec![0; MOST_LISTED]);
    let list = list::of(&[], &[]).unwrap();
    let mut reference = b"MEOW\x01\0\0\0".to_vec();
    reference.extend([1; 56]);
    reference.extend(&list);
    day.census().unwrap();
    day.members(SetId(1)).unwrap();
    day.add(0, ipid, 1, 1).unwrap();
    day.add_list(1, &items, &mut buffer).unwrap();
    day.release_list(1, &items, &mut buffer).unwrap();
    day.complex_ping(SetId(1), 2, &oids, &oids).unwrap();
    day.simple_ping(SetId(1)).unwrap();
    day.resolve(Oxid(1), &mut buffer).unwrap();
    day.resolve_filtered(Oxid(1), &[7; MOST_LISTED], &mut buffer)
        .unwrap();
    day.next_stop(&reference).unwrap();
    day.write_snapshot(&mut buffer).unwrap();
    day.load_snapshot(&snapshot).unwrap();
    day.release(0, ipid, 1, 1).unwrap();
    day.drop_client(1).unwrap();
    day.clock(1359).unwrap();
    day.remove_exporter(Oxid(16)).unwrap();
    day.enter_exporter(Oxid(17), guid(9_001), &list).unwrap();
    day.enter_object(Oid(200), Oxid(17), guid(9_002), ipid, 1, false)
        .unwrap();
    day.enter_interface(Oid(200), guid(9_003), ipid, 1).unwrap();
    day.clock(2000).unwrap();
    day.reset(0).unwrap();
    day.finish().1
}

#[test]
fn whole_records() {
    let recording = recorded();
    let length = recording.len();
    let found = within(4, move || recording::whole(&recording));
    assert_eq!(found.end, length);
}

#[test]
fn a_replay() {
    let recording = recorded();
    let outcome = within(220, move || Table::new(0).replay(&recording));
    assert_eq!(outcome, Ok(Outcome::default()));
}
