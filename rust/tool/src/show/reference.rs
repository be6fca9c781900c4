//! References.

use super::{bindings, dump, json_bindings, many, plain_hex, Paint};
use crate::json::{self, Json};
use crate::names::{self, Known};
use rimonakh::{Context, Error, Property, Reference};
use std::fmt::Write;

/// The fields of a reference, one to a line, after the place where it was found; what is inside it stands further in.
pub fn text(bytes: &[u8], found: Option<usize>, paint: Paint) -> Result<String, Error> {
    let mut out = String::new();
    if let Some(at) = found {
        let _ = writeln!(out, "found at byte {at} ({at:#x})");
    }
    level(&mut out, "", bytes, paint)?;
    Ok(out)
}

fn level(out: &mut String, margin: &str, bytes: &[u8], paint: Paint) -> Result<(), Error> {
    let r = Reference::read(bytes)?;
    let tail = Reference::tail(bytes)?;
    let form = paint.bold(names::form(r.flags));
    let _ = writeln!(out, "{margin}form: {form}, {}", many(bytes.len(), "byte"));
    let _ = writeln!(out, "{margin}IID: {}", Known(r.iid));
    if r.flags == Reference::CUSTOM {
        let _ = writeln!(out, "{margin}CLSID: {}", Known(r.clsid));
        let _ = writeln!(out, "{margin}extension size: {}", r.extension);
        let _ = writeln!(out, "{margin}size: {}", r.size);
        return object_data(out, margin, &r, tail);
    }
    block(out, margin, &r);
    if r.flags == Reference::HANDLER {
        let _ = writeln!(out, "{margin}CLSID: {}", Known(r.clsid));
    }
    bindings(out, margin, tail)?;
    if r.flags == Reference::EXTENDED {
        element(out, margin, &r, Reference::element(bytes, 0)?, paint)?;
    }
    Ok(())
}

fn block(out: &mut String, margin: &str, r: &Reference) {
    let b = r.block;
    let no_ping = if b.no_ping() { " (no ping)" } else { "" };
    let _ = writeln!(out, "{margin}block flags: {:#010x}{no_ping}", b.flags);
    let _ = writeln!(out, "{margin}public references: {}", b.public);
    let _ = writeln!(out, "{margin}OXID: {:#018x}", b.oxid);
    let _ = writeln!(out, "{margin}OID: {:#018x}", b.oid);
    let _ = writeln!(out, "{margin}IPID: {}", b.ipid);
}

/// A context where the CLSID says so.
fn object_data(out: &mut String, margin: &str, r: &Reference, data: &[u8]) -> Result<(), Error> {
    let inner = format!("{margin}  ");
    if r.clsid != Context::MARSHALER {
        let length = many(data.len(), "byte");
        let _ = writeln!(out, "{margin}object data: {length}");
        dump(out, &inner, data, 0);
        return Ok(());
    }
    let c = Context::read(data)?;
    let _ = writeln!(out, "{margin}context id: {}", c.id);
    let _ = writeln!(out, "{margin}reserved: {:#010x}", c.reserved);
    let _ = writeln!(out, "{margin}marshal flags: {:#010x}", c.marshal);
    let _ = writeln!(out, "{margin}frozen: {}", c.frozen);
    let _ = writeln!(out, "{margin}properties: {}", c.count);
    for (k, (p, place)) in Property::all(data)?.enumerate() {
        let (class, policy) = (Known(p.clsid), Known(p.policy));
        let (flags, length) = (property_flags(p.flags), many(place.len(), "byte"));
        let _ = writeln!(
            out,
            "{inner}property {k}: class {class}, policy {policy}, flags {} ({flags}), {length}",
            p.flags
        );
        dump(out, &format!("{inner}  "), &data[place], 0);
    }
    Ok(())
}

fn property_flags(flags: u32) -> &'static str {
    match flags {
        Property::PROPAGATE => "propagate",
        Property::EXPOSE => "expose",
        _ => "envoy",
    }
}

fn is_reference(data: &[u8]) -> bool {
    data.starts_with(&Reference::SIGNATURE)
}

fn element(
    out: &mut String,
    margin: &str,
    r: &Reference,
    data: &[u8],
    paint: Paint,
) -> Result<(), Error> {
    let (inner, id) = (format!("{margin}  "), Known(r.element));
    let length = many(data.len(), "byte");
    if is_reference(data) {
        let _ = writeln!(out, "{margin}element 0: {id}, {length}, a reference:");
        return level(out, &inner, data, paint);
    }
    let _ = writeln!(out, "{margin}element 0: {id}, {length}");
    dump(out, &inner, data, 0);
    Ok(())
}

/// The fields of a reference, likewise.
pub fn json(bytes: &[u8], found: Option<usize>) -> Result<Json, Error> {
    let mut out: Vec<_> = found
        .map(|at| ("found_at", json::size(at)))
        .into_iter()
        .collect();
    out.extend(json_fields(bytes)?);
    Ok(Json::Object(out))
}

fn json_fields(bytes: &[u8]) -> Result<Vec<(&'static str, Json)>, Error> {
    let r = Reference::read(bytes)?;
    let tail = Reference::tail(bytes)?;
    let mut out = vec![
        ("form", json::text(names::form(r.flags))),
        ("length", json::size(bytes.len())),
        ("iid", json::text(r.iid)),
        ("iid_name", json::named(names::guid(&r.iid))),
    ];
    if r.flags == Reference::CUSTOM || r.flags == Reference::HANDLER {
        out.push(("clsid", json::text(r.clsid)));
        out.push(("clsid_name", json::named(names::guid(&r.clsid))));
    }
    if r.flags == Reference::CUSTOM {
        out.push(("extension_size", json::number(r.extension)));
        out.push(("size", json::number(r.size)));
        out.push(json_object_data(&r, tail)?);
        return Ok(out);
    }
    let b = r.block;
    out.push(("block_flags", json::number(b.flags)));
    out.push(("no_ping", Json::Bool(b.no_ping())));
    out.push(("public_references", json::number(b.public)));
    out.push(("oxid", json::wide(b.oxid.0)));
    out.push(("oid", json::wide(b.oid.0)));
    out.push(("ipid", json::text(b.ipid)));
    out.push(("bindings", json_bindings(tail)?));
    if r.flags == Reference::EXTENDED {
        let data = Reference::element(bytes, 0)?;
        let inside = match is_reference(data) {
            true => ("reference", json(data, None)?),
            false => ("data", plain_hex(data)),
        };
        let element = Json::Object(vec![("id", json::text(r.element)), inside]);
        out.push(("element", element));
    }
    Ok(out)
}

fn json_object_data(r: &Reference, data: &[u8]) -> Result<(&'static str, Json), Error> {
    if r.clsid != Context::MARSHALER {
        return Ok(("object_data", plain_hex(data)));
    }
    let c = Context::read(data)?;
    let properties = Property::all(data)?.map(|(p, place)| {
        Json::Object(vec![
            ("class", json::text(p.clsid)),
            ("policy", json::text(p.policy)),
            ("flags", json::number(p.flags)),
            ("data", plain_hex(&data[place])),
        ])
    });
    let context = Json::Object(vec![
        ("id", json::text(c.id)),
        ("reserved", json::number(c.reserved)),
        ("marshal_flags", json::number(c.marshal)),
        ("frozen", json::number(c.frozen)),
        ("properties", json::list(properties)),
    ]);
    Ok(("context", context))
}
