//! Snapshots.

use super::{bindings, json_bindings, Paint};
use crate::json::{self, Json};
use crate::liveness::Silence;
use crate::names::{self, Known};
use rimonakh::limits::{BYTES, EXPORTERS, INTERFACES, OBJECTS, SETS};
use rimonakh::snapshot::{Exporter, Interface, Object, Set};
use rimonakh::{Error, Snapshot};
use std::fmt::Write;

/// The sets that an object is in.
pub fn sets_of(s: &Snapshot, object: &Object) -> Vec<u64> {
    let holds = s.sets.iter().filter(|t| t.members.contains(&object.oid));
    holds.map(|t| t.number.0).collect()
}

/// The places used of each kind, and the bytes of lists, with how many there are.
pub fn places(s: &Snapshot) -> [(&'static str, usize, usize); 5] {
    [
        ("exporters", s.exporters.len(), EXPORTERS),
        ("objects", s.objects.len(), OBJECTS),
        ("interfaces", s.interfaces.len(), INTERFACES),
        ("ping sets", s.sets.len(), SETS),
        ("bytes of binding lists", s.list_bytes(), BYTES),
    ]
}

/// The entries: exporters with their objects, these with their interfaces, then sets.
pub fn text(s: &Snapshot, paint: Paint) -> Result<String, Error> {
    let mut out = String::new();
    let _ = writeln!(out, "clock: {} seconds", s.clock);
    let _ = writeln!(out, "next set: {}", s.next_set.0);
    for (name, used, most) in places(s) {
        let _ = writeln!(out, "{name}: {used} of {most}");
    }
    for x in &s.exporters {
        exporter(&mut out, s, x, paint)?;
    }
    for t in &s.sets {
        set(&mut out, s, t, paint);
    }
    Ok(out)
}

fn exporter(out: &mut String, s: &Snapshot, x: &Exporter, paint: Paint) -> Result<(), Error> {
    let name = paint.bold("exporter");
    let _ = writeln!(out, "{name} {:#018x}, remote unknown {}", x.oxid, x.unknown);
    bindings(out, "  ", x.list())?;
    for o in s.objects.iter().filter(|o| o.exporter == x.oxid) {
        object(out, s, o, paint);
    }
    Ok(())
}

fn object(out: &mut String, s: &Snapshot, o: &Object, paint: Paint) {
    let heard = Silence::of_object(s, o).ago("heard", paint);
    let sets: Vec<String> = sets_of(s, o).iter().map(u64::to_string).collect();
    let sets = match sets.is_empty() {
        true => "in no set".to_string(),
        false => format!("in set {}", sets.join(", ")),
    };
    let _ = writeln!(
        out,
        "  {} {:#018x}: {heard}, {sets}",
        paint.bold("object"),
        o.oid
    );
    for i in s.interfaces.iter().filter(|i| i.object == o.oid) {
        interface(out, i);
    }
}

fn interface(out: &mut String, i: &Interface) {
    let _ = write!(
        out,
        "    IPID {}, IID {}: public {}",
        i.ipid,
        Known(i.iid),
        i.public
    );
    for (client, n) in i.private.iter().enumerate().filter(|(_, n)| **n != 0) {
        let _ = write!(out, ", client {client} private {n}");
    }
    out.push('\n');
}

fn set(out: &mut String, s: &Snapshot, t: &Set, paint: Paint) {
    let name = paint.bold("set");
    let pinged = Silence::of_set(s, t).ago("pinged", paint);
    let members = t.members.len();
    let (number, sequence) = (t.number.0, t.sequence);
    let _ = writeln!(
        out,
        "{name} {number}: sequence {sequence}, {pinged}, members {members}"
    );
    for row in t.members.chunks(4) {
        let row: Vec<String> = row.iter().map(|m| format!("{m:#018x}")).collect();
        let _ = writeln!(out, "  {}", row.join(" "));
    }
}

/// The entries, each kind by itself.
pub fn json(s: &Snapshot) -> Result<Json, Error> {
    let exporters: Result<Vec<Json>, Error> = s.exporters.iter().map(json_exporter).collect();
    Ok(Json::Object(vec![
        ("clock", json::number(s.clock)),
        ("next_set", json::wide(s.next_set.0)),
        ("exporters", Json::List(exporters?)),
        (
            "objects",
            json::list(s.objects.iter().map(|o| json_object(s, o))),
        ),
        (
            "interfaces",
            json::list(s.interfaces.iter().map(json_interface)),
        ),
        ("sets", json::list(s.sets.iter().map(|t| json_set(s, t)))),
    ]))
}

fn json_exporter(x: &Exporter) -> Result<Json, Error> {
    Ok(Json::Object(vec![
        ("oxid", json::wide(x.oxid.0)),
        ("remote_unknown", json::text(x.unknown)),
        ("bindings", json_bindings(x.list())?),
    ]))
}

fn json_object(s: &Snapshot, o: &Object) -> Json {
    let silence = Silence::of_object(s, o);
    Json::Object(vec![
        ("oid", json::wide(o.oid.0)),
        ("exporter", json::wide(o.exporter.0)),
        ("no_ping", Json::Bool(o.no_ping)),
        ("heard", json::number(o.heard)),
        ("silent_seconds", json::number(silence.seconds)),
        ("state", json::text(silence.liveness.words())),
        (
            "sets",
            json::list(sets_of(s, o).into_iter().map(json::wide)),
        ),
    ])
}

fn json_interface(i: &Interface) -> Json {
    Json::Object(vec![
        ("ipid", json::text(i.ipid)),
        ("iid", json::text(i.iid)),
        ("iid_name", json::named(names::guid(&i.iid))),
        ("object", json::wide(i.object.0)),
        ("public", json::number(i.public)),
        ("private", json::list(i.private.map(json::number))),
    ])
}

fn json_set(s: &Snapshot, t: &Set) -> Json {
    let silence = Silence::of_set(s, t);
    Json::Object(vec![
        ("set", json::wide(t.number.0)),
        ("sequence", json::number(t.sequence)),
        ("pinged", json::number(t.pinged)),
        ("silent_seconds", json::number(silence.seconds)),
        ("state", json::text(silence.liveness.words())),
        (
            "members",
            json::list(t.members.iter().map(|m| json::wide(m.0))),
        ),
    ])
}
