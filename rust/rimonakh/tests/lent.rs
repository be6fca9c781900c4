//! Tables over memory of the caller's.

use rimonakh::{list, Counts, Error, Guid, Oid, Oxid, Recorder, Reference, SetId, Stop, Table};
use std::sync::Arc;

/// A table with one entry of each kind, and its set.
fn table() -> (Table, SetId) {
    let mut table = Table::new(1000);
    let bindings = list::of(&[(7, "a")], &[]).unwrap();
    let (unknown, ipid, iid) = (Guid([1; 16]), Guid([2; 16]), Guid([3; 16]));
    table.enter_exporter(Oxid(1), unknown, &bindings).unwrap();
    let entered = table.enter_object(Oid(1), Oxid(1), ipid, iid, 1, false);
    entered.unwrap();
    let pinged = table.complex_ping(SetId(0), 1, &[Oid(1)], &[]).unwrap();
    (table, pinged.set)
}

/// Every call that looks, over what is lent to be read.
fn look<W: AsRef<[u64]>, S: AsRef<[u8]>>(seen: Table<W, S>, set: SetId) {
    let one = Counts {
        exporters: 1,
        objects: 1,
        interfaces: 1,
        sets: 1,
    };
    assert_eq!(seen.census(), Ok(one));
    assert_eq!(seen.members(set), Ok(1));
    let mut buffer = [0; 64];
    let length = seen.resolve(Oxid(1), &mut buffer).unwrap().length;
    let bindings = list::of(&[(7, "a")], &[]).unwrap();
    assert_eq!(buffer[..length], bindings[..]);
    let filtered = seen.resolve_filtered(Oxid(1), &[8], &mut buffer).unwrap();
    assert_eq!(
        list::strings(&buffer[..filtered.length]).unwrap().count(),
        0
    );
    let custom = Reference::custom(Guid([1; 16]), Guid([2; 16]), 0, 0);
    let length = custom.write(&[], &[], &mut buffer).unwrap();
    let stop: Result<Stop, Error> = seen.next_stop(&buffer[..length]);
    assert_eq!(stop, Err(Error::Layout));
    assert!(Table::new(0)
        .load_snapshot(&seen.snapshot().unwrap())
        .is_ok());
}

#[test]
fn to_be_read() {
    let (table, set) = table();
    let (words, store) = (table.words().to_vec(), table.store().to_vec());
    look(Table::over(&words[..], &store[..]), set);
    look(Table::over(&words, &store), set);
    let (shared, bytes): (Arc<[u64]>, Arc<[u8]>) = (words.into(), store.into());
    look(Table::over(shared.clone(), bytes.clone()), set);
    let short = Table::over(&shared[1..], &bytes[..]);
    assert_eq!(short.census(), Err(Error::Unsound));
}

#[test]
fn to_be_changed_and_back() {
    let (table, set) = table();
    let (mut words, mut store) = table.into_parts();
    let mut lent = Table::over(&mut words, &mut store);
    lent.release(0, Guid([2; 16]), 1, 0).unwrap();
    let (words, store) = lent.into_parts();
    let table = Table::over(&words[..], &store[..]);
    assert_eq!(table.census().unwrap().objects, 0);
    assert_eq!(table.members(set), Ok(0));
}

#[test]
fn shown() {
    let (table, _) = table();
    let said = format!("{table:?}");
    for part in [
        "Table(Snapshot { clock: 1000, next_set: SetId(0x2), exporters: [Exporter { oxid: Oxid(0x1), ",
        "strings: [StringBinding { tower: 7, address: \"a\" }], securities: []",
        "objects: [Object { oid: Oid(0x1), exporter: Oxid(0x1), no_ping: false, heard: 1000 }]",
        "ipid: {02020202-0202-0202-0202-020202020202}",
        "sets: [Set { number: SetId(0x1), sequence: 1, pinged: 1000, members: [Oid(0x1)] }]",
    ] {
        assert!(said.contains(part), "{said}");
    }
    let recorder = Recorder::over(table).unwrap();
    let recorded = format!("Recorder {{ table: {said}, records: 1 }}");
    assert_eq!(format!("{recorder:?}"), recorded);
    let (words, store) = Table::new(0).into_parts();
    let short = Table::over(&words[1..], &store[..]);
    assert_eq!(format!("{short:?}"), "Table(Unsound)");
}
