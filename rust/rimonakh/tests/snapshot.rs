//! The entries of a snapshot are those of its bytes and of the table that loads them.

mod making;

use making::guid;
use rimonakh::limits::{BYTES, CLIENTS, EXPORTERS, INTERFACES, LONGEST_LIST, OBJECTS, SETS};
use rimonakh::{list, Error, Oid, Oxid, SetId, Snapshot, Table};

/// The stored snapshot, whose entries crates/snapshot/stdout has in words.
const STORED: &[u8] = include_bytes!("../../../crates/snapshot/stdin");

/// The bytes of a snapshot with these entries (docs/ORDER.md, request 10).
fn bytes(s: &Snapshot) -> Vec<u8> {
    let count = |n: usize| (n as u16).to_le_bytes();
    let mut out = vec![2, 0];
    out.extend([s.clock, s.next_set.0].map(u64::to_le_bytes).concat());
    out.extend(count(s.exporters.len()));
    for x in &s.exporters {
        out.extend([&x.oxid.0.to_le_bytes(), &x.unknown.0[..]].concat());
        out.extend([&count(x.list().len()), x.list()].concat());
    }
    out.extend(count(s.objects.len()));
    for x in &s.objects {
        out.extend([x.oid.0, x.exporter.0].map(u64::to_le_bytes).concat());
        out.push(x.no_ping.into());
        out.extend(x.heard.to_le_bytes());
    }
    out.extend(count(s.interfaces.len()));
    for x in &s.interfaces {
        out.extend([&x.ipid.0[..], &x.iid.0, &x.object.0.to_le_bytes()].concat());
        out.extend(x.counts().map(u32::to_le_bytes).concat());
    }
    out.extend(count(s.sets.len()));
    for x in &s.sets {
        out.extend(x.number.0.to_le_bytes());
        out.extend(x.sequence.to_le_bytes());
        out.extend(x.pinged.to_le_bytes());
        out.extend(count(x.members.len()));
        out.extend(x.members.iter().flat_map(|oid| oid.0.to_le_bytes()));
    }
    out
}

/// Every entry of the bytes is there, and the table that loads them answers as the entries say.
fn agrees(given: &[u8]) -> Snapshot {
    let s = Snapshot::read(given).unwrap();
    assert_eq!(bytes(&s), given);
    let mut table = Table::new(0);
    table.load_snapshot(given).unwrap();
    let live = table.census().unwrap();
    let counts = [live.exporters, live.objects, live.interfaces, live.sets];
    let read = [s.exporters.len(), s.objects.len()];
    let read = [&read[..], &[s.interfaces.len(), s.sets.len()]].concat();
    assert_eq!(read, counts);
    for x in &s.exporters {
        let mut buffer = [0; LONGEST_LIST];
        let resolved = table.resolve(x.oxid, &mut buffer).unwrap();
        assert_eq!(&buffer[..resolved.length], x.list());
        assert_eq!(resolved.unknown, x.unknown);
    }
    for x in &s.sets {
        assert_eq!(table.members(x.number), Ok(x.members.len()));
    }
    s
}

#[test]
fn stored() {
    let s = agrees(STORED);
    assert_eq!((s.clock, s.next_set), (1000, SetId(5)));
    let x = &s.exporters[0];
    assert_eq!((x.oxid, x.list().len()), (Oxid(0x51), 46));
    let strings: Vec<_> = x.strings().collect();
    assert_eq!((strings.len(), strings[0].tower), (1, 7));
    assert_eq!(strings[0].address, "gw01[49668]");
    let securities: Vec<_> = x.securities().collect();
    assert_eq!((securities.len(), securities[0].service), (1, 10));
    assert_eq!(securities[0].reserved, 0xFFFF);
    assert_eq!(securities[0].name, "rpc");
    let bare = &s.exporters[1];
    assert_eq!((bare.strings().count(), bare.securities().count()), (0, 0));
    let silent: Vec<_> = s.objects.iter().map(|x| s.clock - x.heard).collect();
    assert_eq!(silent, [0, 990, 359]);
    assert_eq!(s.objects[1].exporter, Oxid(0x52));
    assert!(s.objects[1].no_ping && !s.objects[2].no_ping);
    assert_eq!(s.interfaces[1].public, u32::MAX);
    assert_eq!(s.interfaces[3].counts(), [1, 1, 0, 0, 0, 0, 0, 0, 0]);
    assert_eq!(s.sets[1].members, [Oid(0x41), Oid(0x43)]);
    assert_eq!((s.sets[1].sequence, s.sets[1].pinged), (65535, 641));
    assert_eq!(s.list_bytes(), 54);
}

#[test]
fn empty_and_full() {
    let s = agrees(&Table::new(7).snapshot().unwrap());
    let empty = Snapshot {
        clock: 7,
        next_set: SetId(1),
        ..Snapshot::default()
    };
    assert_eq!(s, empty);

    let mut table = Table::new(7);
    let long = list::of(&[(7, &"a".repeat(250))], &[]).unwrap();
    assert_eq!(long.len() * EXPORTERS, BYTES);
    for x in 1..=EXPORTERS as u64 {
        table.enter_exporter(Oxid(x), guid(x), &long).unwrap();
    }
    for o in 1..=OBJECTS as u64 {
        let (oxid, ipid) = (Oxid(1 + o % 16), guid(1000 + o));
        let entered = table.enter_object(Oid(o), oxid, ipid, guid(9), 1, o % 2 == 0);
        entered.unwrap();
        table
            .enter_interface(Oid(o), guid(2000 + o), guid(9), 1)
            .unwrap();
    }
    for client in 0..CLIENTS {
        table.add(client, guid(1001), 0, client + 10).unwrap();
    }
    let all: Vec<Oid> = (1..=OBJECTS as u64).map(Oid).collect();
    for _ in 0..SETS {
        table.complex_ping(SetId(0), 1, &all, &[]).unwrap();
    }
    let s = agrees(&table.snapshot().unwrap());
    assert_eq!(s.interfaces.len(), INTERFACES);
    assert_eq!(s.list_bytes(), BYTES);
    let found = s.interfaces.iter().find(|x| x.ipid == guid(1001)).unwrap();
    assert_eq!(found.private, [10, 11, 12, 13, 14, 15, 16, 17]);
}

#[test]
fn refused() {
    for n in 0..STORED.len() {
        assert_eq!(Snapshot::read(&STORED[..n]), Err(Error::NoSnapshot));
    }
    let more = [STORED, &[0]].concat();
    assert_eq!(Snapshot::read(&more), Err(Error::NoSnapshot));
}
