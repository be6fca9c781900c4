//! Limits: header and crate say the numbers that the proved crates have, and both sides of each are tried.

mod making;
mod repository;

use making::{guid, nest};
use repository::file;
use rimonakh::limits::*;
use rimonakh::{
    list, snapshot_clock, Error, Extension, Item, Oid, OrpcThat, OrpcThis, Oxid, SetId, Table,
};

/// What stands behind `before` in a file of the repository, up to what is no digit of a number.
fn number(path: &str, before: &str) -> u64 {
    let text = file(path);
    let (_, rest) = text.split_once(before).expect(before);
    let digits = rest.split(|c: char| !c.is_ascii_digit()).next();
    digits.and_then(|d| d.parse().ok()).expect(before)
}

fn declared(name: &str) -> u64 {
    number("include/rimonakh.h", &format!(" RIMONAKH_{name} = "))
}

#[test]
fn one_number() {
    let kinds = "crates/kinds/src/limits.rt";
    let constant = |path, name| number(path, &format!("pub const {name}: usize = "));
    for (name, here, path, proved) in [
        ("WORDS", WORDS, kinds, "WORDS"),
        ("BYTES", BYTES, kinds, "BYTES"),
        ("EXPORTERS", EXPORTERS, kinds, "EXPORTER_PLACES"),
        ("OBJECTS", OBJECTS, kinds, "OBJECT_PLACES"),
        ("INTERFACES", INTERFACES, kinds, "INTERFACE_PLACES"),
        ("SETS", SETS, kinds, "SET_PLACES"),
        ("LONGEST_LIST", LONGEST_LIST, kinds, "LONGEST_LIST"),
        (
            "LONGEST_SNAPSHOT",
            LONGEST_SNAPSHOT,
            kinds,
            "LONGEST_SNAPSHOT",
        ),
        (
            "MOST_LISTED",
            MOST_LISTED,
            "crates/kinds/src/answer.rt",
            "MOST_LISTED",
        ),
        (
            "MOST_LEVELS",
            MOST_LEVELS,
            "crates/references/src/lib.rt",
            "DEPTH",
        ),
    ] {
        assert_eq!(declared(name), here as u64, "{name}");
        assert_eq!(constant(path, proved), here as u64, "{name}");
    }
    let last = number(kinds, "pub const LAST_CLIENT: u32 = ");
    assert_eq!(declared("CLIENTS"), CLIENTS.into());
    assert_eq!(last + 1, CLIENTS.into());
    let records = "crates/recording/src/lib.rt";
    let most = number(records, "pub const MOST_RECORDS: u64 = ");
    assert_eq!(declared("MOST_RECORDS"), MOST_RECORDS);
    assert_eq!(most, MOST_RECORDS);
    assert_eq!(declared("SILENCE"), SILENCE);
    assert_eq!(declared("ITEM_SIZE"), Item::SIZE as u64);
    assert_eq!(declared("MOST_EXTENSIONS"), MOST_EXTENSIONS as u64);
    assert_eq!(declared("MOST_MINOR"), MOST_MINOR.into());
    let layout = number("include/rimonakh.h", "#define RIMONAKH_TABLE_LAYOUT ");
    assert_eq!(layout, TABLE_LAYOUT.into());
}

/// A table with an exporter and an object with one interface.
fn table() -> Table {
    let mut table = Table::new(1000);
    table.enter_exporter(Oxid(1), guid(1), &[0; 4]).unwrap();
    let (ipid, iid) = (guid(2), guid(3));
    table
        .enter_object(Oid(1), Oxid(1), ipid, iid, 1, false)
        .unwrap();
    table
}

#[test]
fn of_a_table() {
    let mut full = table();
    let bare = [0; 4];
    for n in 2..=EXPORTERS as u64 {
        full.enter_exporter(Oxid(n), guid(n << 16), &bare).unwrap();
    }
    let more = full.enter_exporter(Oxid(99), guid(99), &bare);
    assert_eq!(more, Err(Error::NoPlace));
    let enter =
        |full: &mut Table, n| full.enter_object(Oid(n), Oxid(1), guid(n << 32), guid(3), 1, false);
    for n in 2..=OBJECTS as u64 {
        enter(&mut full, n).unwrap();
    }
    assert_eq!(enter(&mut full, 999), Err(Error::NoPlace));
    for n in 1..=(INTERFACES - OBJECTS) as u64 {
        full.enter_interface(Oid(n), guid(n << 40), guid(3), 1)
            .unwrap();
    }
    let more = full.enter_interface(Oid(1), guid(99), guid(3), 1);
    assert_eq!(more, Err(Error::NoPlace));
    for _ in 0..SETS {
        full.complex_ping(SetId(0), 1, &[], &[]).unwrap();
    }
    let more = full.complex_ping(SetId(0), 1, &[], &[]);
    assert_eq!(more.unwrap_err(), Error::NoPlace);
}

#[test]
fn of_clients_items_and_lists() {
    let mut table = table();
    table.add(CLIENTS - 1, guid(2), 0, 1).unwrap();
    assert_eq!(table.add(CLIENTS, guid(2), 0, 1), Err(Error::NoClient));
    let item = Item {
        ipid: guid(2),
        public: 0,
        private: 0,
    };
    let items = item.to_bytes().repeat(MOST_LISTED + 1);
    let mut results = vec![9; MOST_LISTED + 1];
    let listed = MOST_LISTED * Item::SIZE;
    table.add_list(0, &items[..listed], &mut results).unwrap();
    assert_eq!(table.add_list(0, &items, &mut results), Err(Error::TooMany));
    let oids = vec![Oid(1); MOST_LISTED + 1];
    let ping = table.complex_ping(SetId(0), 1, &oids[1..], &[]);
    assert_eq!(ping.unwrap().set, SetId(1));
    let ping = table.complex_ping(SetId(0), 1, &[], &oids);
    assert_eq!(ping.unwrap_err(), Error::TooMany);
    let list = |bytes: usize| list::of(&[(7, &"a".repeat(bytes / 2 - 6))], &[]).unwrap();
    assert_eq!(list(LONGEST_LIST).len(), LONGEST_LIST);
    let longer = list(LONGEST_LIST + 2);
    let enter =
        |table: &mut Table, n, list: &[u8]| table.enter_exporter(Oxid(n), guid(n << 16), list);
    assert_eq!(enter(&mut table, 2, &longer), Err(Error::LongList));
    for n in 2..=BYTES as u64 / LONGEST_LIST as u64 {
        enter(&mut table, n, &list(LONGEST_LIST)).unwrap();
    }
    let last = LONGEST_LIST - 4; // the first exporter has four bytes
    assert_eq!(enter(&mut table, 9, &list(last + 2)), Err(Error::NoPlace));
    enter(&mut table, 9, &list(last)).unwrap();
}

#[test]
fn of_headers_and_references() {
    let mut buffer = vec![0; 4096];
    let header = |minor| OrpcThis {
        minor,
        flags: 0,
        causality: guid(1),
    };
    header(MOST_MINOR).write(&mut buffer).unwrap();
    let higher = header(MOST_MINOR + 1).write(&mut buffer);
    assert_eq!(higher, Err(Error::BadVersion));
    let data = Extension {
        id: guid(1),
        pointer: 1,
        data: &[],
    };
    let mut written =
        |n: usize| OrpcThat { flags: 0 }.write_with(1, 1, &vec![data; n], &mut buffer);
    written(MOST_EXTENSIONS).unwrap();
    assert_eq!(written(MOST_EXTENSIONS + 1), Err(Error::Layout));
    assert!(nest(MOST_LEVELS).is_ok());
    assert_eq!(nest(MOST_LEVELS + 1), Err(Error::TooDeep));
}

#[test]
fn of_time() {
    let mut table = table();
    table.clock(1000 + SILENCE - 1).unwrap();
    assert_eq!(table.census().unwrap().objects, 1);
    let snapshot = table.snapshot().unwrap();
    assert_eq!(snapshot_clock(&snapshot), 1000 + SILENCE - 1);
    assert_eq!(table.clock(1000 + SILENCE).unwrap().objects, 1);
    // a jump can't be taken back, but by a snapshot from before it
    table.clock(u64::MAX).unwrap();
    assert_eq!(table.clock(1000 + SILENCE), Err(Error::ClockBack));
    table.load_snapshot(&snapshot).unwrap();
    assert_eq!(table.clock(5), Err(Error::ClockBack));
    assert_eq!(table.clock(snapshot_clock(&snapshot)).unwrap().objects, 0);
}

/// FNV-1a.
fn sum(bytes: impl Iterator<Item = u8>) -> u64 {
    bytes.fold(0xcbf2_9ce4_8422_2325, |sum, byte| {
        (sum ^ u64::from(byte)).wrapping_mul(0x0100_0000_01b3)
    })
}

/// A table with something in each column. Where this sum changes, saved tables are of no use any more: TABLE_LAYOUT goes up by one.
#[test]
fn layout_of_a_saved_table() {
    let mut table = table();
    let list = list::of(&[(7, "a")], &[(10, 9, "b")]).unwrap();
    table
        .enter_exporter(Oxid(2), guid(4 << 40 | 5), &list)
        .unwrap();
    table.enter_interface(Oid(1), guid(6), guid(7), 8).unwrap();
    table
        .enter_object(Oid(9), Oxid(2), guid(10), guid(11), 12, true)
        .unwrap();
    for client in 0..CLIENTS {
        table.add(client, guid(6), 0, 100 + client).unwrap();
    }
    table.complex_ping(SetId(0), 13, &[Oid(9)], &[]).unwrap();
    let words = table.words().iter().flat_map(|w| w.to_le_bytes());
    let saved = sum(words.chain(table.store().iter().copied()));
    assert_eq!((TABLE_LAYOUT, saved), (3, 0x399f_c0a8_1e0d_c011));
}
