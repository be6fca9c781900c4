//! Rows of references, contexts, headers and fragments.

use crate::data::{addresses, ipid, spread};
use crate::data::{context, header, nest, one_binding, reference, short_bindings, standard};
use crate::measure::{Bench, State};
use plain::bytes as pb;
use rimonakh::{list, Context, Error, FragmentReader, OrpcThis, Part, Property, Reference};
use std::hint::black_box;

/// The fixed fields that `standard` has.
fn fields() -> pb::Reference {
    pb::Reference {
        flags: Reference::STANDARD,
        iid: ipid(1),
        public: 5,
        oxid: spread(1),
        oid: spread(2),
        ipid: ipid(2),
        ..pb::Reference::default()
    }
}

pub fn references(bench: &mut Bench) {
    bench.group("References");
    for n in [20, 254, 32_734] {
        read_and_write(bench, &one_binding(n), "one binding");
    }
    for n in [20, 254, 32_734] {
        read_and_write(bench, &short_bindings(n), "bindings of 3 words");
    }
    read_and_write(bench, &addresses(40), "40 addresses");
    bench.group("Bindings");
    for list in [
        short_bindings(20),
        short_bindings(254),
        short_bindings(32_734),
        addresses(40),
    ] {
        bindings(bench, &list);
    }
}

fn read_and_write(bench: &mut Bench, list: &[u8], what: &str) {
    let bytes = reference(list);
    let length = bytes.len();
    let (typed, fields) = (standard(), fields());
    bench
        .row(format!("write a reference of {length} bytes, {what}"))
        .run(
            &State::room(length),
            |s| typed.write(list, &[], &mut s.out),
            |s| pb::write_reference(&fields, list, &[], &mut s.out),
        );
    bench
        .row(format!("read a reference of {length} bytes, {what}"))
        .run(
            &State::default(),
            |_| Reference::read(&bytes),
            |_| pb::read_reference(&bytes),
        );
}

fn bindings(bench: &mut Bench, list: &[u8]) {
    let count = pb::bindings(list).unwrap().0.count();
    let bytes = reference(list);
    let none = State::default();
    let name = format!("all bindings of a list in one pass: {count}");
    bench.row(name).each(count).run(
        &none,
        |_| all(list::bindings(list, Part::Strings)),
        |_| all(pb::bindings(list).map(|(strings, _)| strings)),
    );
    let name = format!("all bindings of a reference in one pass: {count}");
    bench.row(name).each(count).run(
        &none,
        |_| all(Reference::bindings(&bytes, Part::Strings)),
        |_| {
            let (_, tail) = pb::read_reference(&bytes)?;
            all(pb::bindings(&bytes[tail]).map(|(strings, _)| strings))
        },
    );
    let name = format!("all bindings of a list by number: {count}");
    bench.row(name).each(count).slow(count > 1000).run(
        &none,
        |_| each(count, |k| list::locate(list, Part::Strings, k)),
        |_| all(pb::bindings(list).map(|(strings, _)| strings)),
    );
    let name = format!("the last binding of a list by number: {count}");
    bench.row(name).run(
        &none,
        |_| list::locate(list, Part::Strings, count - 1),
        |_| pb::string_binding(list, count - 1),
    );
}

/// The calls of numbers up to n, whose results are made.
fn each<T>(n: usize, call: impl Fn(usize) -> Result<T, Error>) -> Result<(), Error> {
    (0..n).try_for_each(|k| call(k).map(|x| drop(black_box(x))))
}

/// Each thing of those that are found, which is made.
fn all<T, E>(found: Result<impl Iterator<Item = T>, E>) -> Result<(), E> {
    found.map(|things| things.for_each(|x| drop(black_box(x))))
}

pub fn nests(bench: &mut Bench) {
    bench.group("Nests of eight references");
    for n in [20, 254] {
        let list = one_binding(n);
        let (typed, bytes) = nest(&list);
        let length = bytes.len();
        bench
            .row(format!("read a nest of eight, {length} bytes"))
            .run(
                &State::default(),
                |_| Reference::read(&bytes),
                |_| pb::read_reference(&bytes),
            );
        let content = Reference::element(&bytes, 0).unwrap();
        let (fields, _) = pb::read_reference(&bytes).unwrap();
        bench
            .row(format!("write a nest of eight, {length} bytes"))
            .run(
                &State::room(length),
                |s| typed.write(&list, content, &mut s.out),
                |s| pb::write_reference(&fields, &list, content, &mut s.out),
            );
    }
}

pub fn contexts(bench: &mut Bench) {
    bench.group("Contexts");
    for n in [8, 64, 512] {
        let bytes = context(n);
        bench.row(format!("read a context, properties: {n}")).run(
            &State::default(),
            |_| Context::read(&bytes),
            |_| pb::read_context(&bytes),
        );
        let n = n as usize;
        let name = format!("all properties of a context in one pass: {n}");
        bench.row(name).each(n).run(
            &State::default(),
            |_| all(Property::all(&bytes)),
            |_| all(pb::properties(&bytes)),
        );
        let name = format!("all properties of a context by number: {n}");
        bench.row(name).each(n).run(
            &State::default(),
            |_| each(n, |k| Property::read(&bytes, k)),
            |_| all(pb::properties(&bytes)),
        );
    }
}

pub fn headers(bench: &mut Bench) {
    bench.group("Headers");
    for n in [1, 8, 32] {
        let bytes = header(n);
        bench.row(format!("read a header, extensions: {n}")).run(
            &State::default(),
            |_| OrpcThis::read(&bytes),
            |_| plain::extensions::this(&bytes).map(|e| e.length),
        );
        let n = n as usize;
        let name = format!("all extensions of a header in one pass: {n}");
        bench.row(name).each(n).run(
            &State::default(),
            |_| all(OrpcThis::extensions(&bytes)),
            |_| all(plain::extensions::this(&bytes)),
        );
        let name = format!("all extensions of a header by number: {n}");
        bench.row(name).each(n).run(
            &State::default(),
            |_| each(n, |k| OrpcThis::extension(&bytes, k)),
            |_| all(plain::extensions::this(&bytes)),
        );
    }
}

pub fn fragments(bench: &mut Bench) {
    bench.group("A byte in fragments");
    let mut custom = b"MEOW\x04\0\0\0".to_vec();
    custom.resize(65_536, 7);
    for (what, bytes) in [
        ("object data", custom),
        ("a list of one binding", reference(&one_binding(32_734))),
        (
            "a list of many bindings",
            reference(&short_bindings(32_734)),
        ),
    ] {
        for packet in [1400, 1] {
            in_fragments(bench, what, &bytes, packet);
        }
    }
}

fn in_fragments(bench: &mut Bench, what: &str, bytes: &[u8], packet: usize) {
    let room = bytes.len();
    let row = bench.row(format!("a byte of {what} in fragments of {packet}"));
    row.each(room).run(
        &State::room(room),
        |s| {
            let mut reader = FragmentReader::new(room);
            for fragment in bytes.chunks(packet) {
                reader.push(fragment);
            }
            reader.finish(&mut s.out)
        },
        |s| {
            let mut waiting = vec![0; room];
            let mut state = plain::fragments::Fragments::default();
            for fragment in bytes.chunks(packet) {
                state.push(&mut waiting, fragment);
            }
            state.finish(&waiting, &mut s.out)
        },
    );
}
