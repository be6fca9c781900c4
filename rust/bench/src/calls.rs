//! Rows of the judgement, of single calls on a full table, and of a replay.

use crate::data::{
    addresses, empty_table, full_table, full_table_by, guid, ipid, one_binding, one_bucket, random,
    reference, short_bindings, spread,
};
use crate::measure::{Bench, State};
use plain::table as pt;
use rimonakh::limits::MOST_RECORDS;
use rimonakh::{Oid, Oxid, Recorder, SetId, Table, LONGEST_SNAPSHOT};

pub fn judging(bench: &mut Bench) {
    bench.group("Judging a table (census)");
    for (what, table) in [
        ("a full table, short lists", full_table(&one_binding(20))),
        ("a full table, full lists", full_table(&one_binding(254))),
        (
            "a full table, lists of short bindings",
            full_table(&short_bindings(254)),
        ),
        (
            "a full table of random identifiers, short lists",
            full_table_by(random, &one_binding(20)),
        ),
        (
            "a full table in one bucket, short lists",
            full_table_by(one_bucket(), &one_binding(20)),
        ),
        ("an empty table", empty_table()),
    ] {
        bench.row(format!("judge {what}")).run(
            &table,
            |s| s.table().census(),
            |s| pt::census(&s.words, &s.store),
        );
    }
}

pub fn counts(bench: &mut Bench) {
    bench.group("Counts on a full table, short lists");
    let table = full_table(&one_binding(20));
    let mut many = table.clone();
    let i = ipid(200);
    many.table()
        .add(0, guid(i), 4_000_000_000, 4_000_000_000)
        .unwrap();
    bench.row("add").run(
        &table,
        |s| s.table().add(0, guid(i), 2, 1),
        |s| pt::add(&mut s.words, &s.store, 0, i, 2, 1),
    );
    bench.row("release, nothing goes").run(
        &many,
        |s| s.table().release(0, guid(i), 1, 1),
        |s| pt::release(&mut s.words, &s.store, 0, i, 1, 1),
    );
    bench.row("release, the interface goes").again().run(
        &table,
        |s| s.table().release(0, guid(i), 9, 9),
        |s| pt::release(&mut s.words, &s.store, 0, i, 9, 9),
    );
    bench.row("drop client, nothing goes").run(
        &table,
        |s| s.table().drop_client(3),
        |s| pt::drop_client(&mut s.words, &s.store, 3),
    );
    bench.row("remove exporter, 8 objects go").again().run(
        &table,
        |s| s.table().remove_exporter(Oxid(spread(3))),
        |s| pt::remove_exporter(&mut s.words, &mut s.store, spread(3)),
    );
}

pub fn pings(bench: &mut Bench) {
    bench.group("Pings and clock on a full table, short lists");
    let table = full_table(&one_binding(20));
    let some: Vec<u64> = (0..20).map(|i| spread(6 * i)).collect();
    complex_ping(bench, &table, "20 adds and 17 deletes", &some, &some[3..]);
    let most: Vec<u64> = (0..65_535).map(|i| spread(i * 7 % 128)).collect();
    complex_ping(bench, &table, "65,535 adds and deletes", &most, &most);
    bench.row("simple ping, 128 members").run(
        &table,
        |s| s.table().simple_ping(SetId(32)),
        |s| pt::simple_ping(&mut s.words, &s.store, 32),
    );
    bench.row("clock, nothing goes").run(
        &table,
        |s| s.table().clock(1000),
        |s| pt::clock(&mut s.words, &s.store, 1000),
    );
    bench.row("clock, all objects and sets go").again().run(
        &table,
        |s| s.table().clock(1360),
        |s| pt::clock(&mut s.words, &s.store, 1360),
    );
}

/// Each call has the next sequence number.
fn complex_ping(bench: &mut Bench, table: &State, what: &str, adds: &[u64], deletes: &[u64]) {
    let ids = |of: &[u64]| of.iter().copied().map(Oid).collect::<Vec<Oid>>();
    let (added, deleted) = (ids(adds), ids(deletes));
    let next = |s: &mut State| {
        s.calls = s.calls.wrapping_add(1);
        s.calls.wrapping_add(1)
    };
    bench.row(format!("complex ping, {what}")).run(
        table,
        |s| {
            let sequence = next(s);
            s.table().complex_ping(SetId(7), sequence, &added, &deleted)
        },
        |s| {
            let sequence = next(s);
            pt::complex_ping(&mut s.words, &s.store, 7, sequence, adds, deletes)
        },
    );
}

pub fn resolving(bench: &mut Bench) {
    bench.group("Resolving on a full table");
    let table = full_table(&one_binding(20)).with_room(pt::LONGEST_LIST);
    let x = spread(9);
    bench.row("resolve, short lists").run(
        &table,
        |s| {
            let (table, out) = s.parts();
            table.resolve(Oxid(x), out)
        },
        |s| pt::resolve(&s.words, &s.store, x, &mut s.out),
    );
    let (few, most) = (vec![8, 7, 31], vec![9; 65_535]);
    for (what, list, protocols) in [
        ("3 protocols, one binding", one_binding(254), &few),
        ("3 protocols, 11 addresses", addresses(11), &few),
        ("65,535 protocols, one binding", one_binding(254), &most),
        ("65,535 protocols, 11 addresses", addresses(11), &most),
        ("65,535 protocols, 84 bindings", short_bindings(254), &most),
    ] {
        bench.row(format!("resolve by {what}")).run(
            &full_table(&list).with_room(pt::LONGEST_LIST),
            |s| {
                let (table, out) = s.parts();
                table.resolve_filtered(Oxid(x), protocols, out)
            },
            |s| pt::resolve_filtered(&s.words, &s.store, x, protocols, &mut s.out),
        );
    }
    let bytes = reference(&one_binding(20));
    bench
        .row("next stop of a reference of 108 bytes, short lists")
        .run(
            &table,
            |s| s.table().next_stop(&bytes).map(|_| ()),
            |s| pt::next_stop(&s.words, &s.store, &bytes),
        );
}

pub fn snapshots(bench: &mut Bench) {
    bench.group("Snapshots of a full table");
    for (what, n) in [("short lists", 20), ("full lists", 254)] {
        let mut table = full_table(&one_binding(n)).with_room(LONGEST_SNAPSHOT);
        bench.row(format!("write a snapshot, {what}")).run(
            &table,
            |s| {
                let (table, out) = s.parts();
                table.write_snapshot(out)
            },
            |s| plain::snapshot::write(&s.words, &s.store, &mut s.out),
        );
        let snapshot = table.table().snapshot().unwrap();
        bench.row(format!("load a snapshot, {what}")).run(
            &table,
            |s| s.table().load_snapshot(&snapshot),
            |s| plain::snapshot::load(&mut s.words, &mut s.store, &snapshot),
        );
    }
}

/// The load of a full table's snapshot, and adds to all of its interfaces in turn; then with a release after each add.
pub fn replays(bench: &mut Bench) {
    bench.group("A record of a replay");
    for (what, released) in [("adds", false), ("adds and releases", true)] {
        let State { words, store, .. } = full_table(&one_binding(20));
        let mut recorder = Recorder::over(Table::over(words, store)).unwrap();
        for k in 1..MOST_RECORDS {
            let n = if released { k.div_ceil(2) } else { k };
            let (client, ipid) = (n as u32 % 8, guid(ipid(n % 256)));
            if released && k % 2 == 0 {
                recorder.release(client, ipid, 2, 1).unwrap();
            } else {
                recorder.add(client, ipid, 2, 1).unwrap();
            }
        }
        let (_, recording) = recorder.finish();
        let agreed = |differs: u32| if differs == 0 { Ok(()) } else { Err(differs) };
        bench
            .row(format!("replay 16,384 records, {what} on a full table"))
            .each(MOST_RECORDS as usize)
            .run(
                &empty_table(),
                |s| {
                    let outcome = s.table().replay(&recording);
                    agreed(outcome.map_err(|e| e.number())?.differs.unwrap_or(0))
                },
                |s| {
                    let outcome = plain::recording::replay(&mut s.words, &mut s.store, &recording);
                    agreed(outcome?.differs)
                },
            );
    }
}
