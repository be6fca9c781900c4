//! Lists, references, contexts, headers and tables to measure on.

use crate::measure::State;
use plain::table as pt;
use rimonakh::{list, Block, Context, Extension, Guid, Oid, OrpcThis, Oxid, Property, Reference};

/// An identifier, spread over its bits.
pub fn spread(n: u64) -> u64 {
    (n + 1).wrapping_mul(0x9E37_79B9_7F4A_7C15)
}

/// An identifier with no pattern, by splitmix64.
pub fn random(n: u64) -> u64 {
    let mut z = spread(n);
    z = (z ^ z >> 30).wrapping_mul(0xBF58_476D_1CE4_E5B9);
    z = (z ^ z >> 27).wrapping_mul(0x94D0_49BB_1331_11EB);
    z ^ z >> 31
}

/// An IPID, made of spread identifiers.
pub fn ipid(n: u64) -> plain::Guid {
    ipid_by(spread, n)
}

fn ipid_by(id: impl Fn(u64) -> u64, n: u64) -> plain::Guid {
    plain::Guid {
        low: id(n),
        high: id(n + 10_000),
    }
}

pub fn guid(g: plain::Guid) -> Guid {
    Guid((g.low as u128 | (g.high as u128) << 64).to_le_bytes())
}

/// A binding list of n words: one string binding, no security binding.
pub fn one_binding(n: usize) -> Vec<u8> {
    list::of(&[(7, &"a".repeat(n - 4))], &[]).unwrap()
}

/// A binding list of about n words: string bindings of three words, no security binding.
pub fn short_bindings(n: usize) -> Vec<u8> {
    list::of(&vec![(7, "a"); (n - 2) / 3], &[]).unwrap()
}

/// A binding list with n addresses as servers have them, and two security bindings.
pub fn addresses(n: u16) -> Vec<u8> {
    let address =
        |list: list::Builder, k| list.string(7, &format!("192.168.{k}.{}[49152]", 10 + k));
    let list = (0..n).fold(list::Builder::new(), address);
    let list = list.security(10, 0xFFFF, "").security(9, 0xFFFF, "");
    list.build().unwrap()
}

pub fn block() -> Block {
    Block {
        flags: 0,
        public: 5,
        oxid: Oxid(spread(1)),
        oid: Oid(spread(2)),
        ipid: guid(ipid(2)),
    }
}

pub fn standard() -> Reference {
    Reference::standard(guid(ipid(1)), block())
}

/// The bytes of a standard reference with this list.
pub fn reference(list: &[u8]) -> Vec<u8> {
    let mut bytes = vec![0; 64 + list.len()];
    standard().write(list, &[], &mut bytes).unwrap();
    bytes
}

/// An extended reference, and the bytes of eight of them with this list, each but the last in the one before: the deepest nest that is
/// read.
pub fn nest(list: &[u8]) -> (Reference, Vec<u8>) {
    let extended = Reference::extended(guid(ipid(1)), block(), guid(ipid(3)));
    let mut bytes = vec![1; 24];
    for _ in 0..8 {
        let mut outer = vec![0; 200 + list.len() + bytes.len()];
        let length = extended.write(list, &bytes, &mut outer).unwrap();
        outer.truncate(length);
        bytes = outer;
    }
    (extended, bytes)
}

/// A context with n properties of 16 bytes.
pub fn context(n: u32) -> Vec<u8> {
    let mut properties = vec![];
    for k in 0..n.into() {
        let property = Property {
            clsid: guid(ipid(k)),
            policy: guid(ipid(k + 1)),
            flags: Property::PROPAGATE,
        };
        let mut buffer = [0; 64];
        let length = property.write(&[7; 16], &mut buffer).unwrap();
        properties.extend(&buffer[..length]);
    }
    let context = Context {
        id: guid(ipid(1)),
        count: n,
        ..Context::default()
    };
    let mut buffer = vec![0; 48 + properties.len()];
    context.write(&properties, &mut buffer).unwrap();
    buffer
}

/// The header of a call with n extensions of 44 bytes.
pub fn header(n: u32) -> Vec<u8> {
    let extension = |k: u32| Extension {
        pointer: 0x20008 + 4 * k,
        id: guid(ipid(k.into())),
        data: &[5; 44],
    };
    let extensions: Vec<Extension> = (0..n).map(extension).collect();
    let header = OrpcThis {
        minor: 7,
        flags: 0,
        causality: guid(ipid(1)),
    };
    let mut buffer = vec![0; 4096];
    let length = header
        .write_with(0x20000, 0x20004, &extensions, &mut buffer)
        .unwrap();
    buffer.truncate(length);
    buffer
}

pub fn empty_table() -> State {
    let mut words = vec![0; pt::WORDS];
    let store = vec![0; pt::BYTES];
    pt::reset(&mut words, &store, 1000).unwrap();
    State {
        words,
        store,
        ..State::default()
    }
}

/// A table with every place taken, whose exporters have this list. Each set has 20 members, the last one every object.
pub fn full_table(list: &[u8]) -> State {
    full_table_by(spread, list)
}

/// The same with other identifiers.
pub fn full_table_by(id: impl Fn(u64) -> u64, list: &[u8]) -> State {
    let mut table = empty_table();
    let (w, s) = (&mut table.words, &mut table.store);
    let iid = plain::Guid { low: 1, high: 2 };
    let ipid = |n: u64| ipid_by(&id, n);
    for x in 0..16 {
        pt::enter_exporter(w, s, id(x), ipid(1000 + x), list).unwrap();
    }
    for o in 0..128 {
        pt::enter_object(w, s, id(o), id(o % 16), ipid(o), iid, 5, false).unwrap();
    }
    for i in 128..256 {
        pt::enter_interface(w, s, id(i % 128), ipid(i), iid, 5).unwrap();
    }
    for k in 0..32 {
        let some = if k < 31 { 20 } else { 128 };
        let members: Vec<u64> = (0..some).map(|i| id((5 * k + 3 * i) % 128)).collect();
        pt::complex_ping(w, s, 0, 1, &members, &[]).unwrap();
    }
    table
}

/// References that each interface of a rich table has besides its first ones: so many that none runs out.
pub const RICH: u32 = 100_000_000;

/// A full table with short lists and rich counts, of these clients and public ones.
pub fn rich_table(clients: std::ops::Range<u32>) -> State {
    let mut table = full_table(&one_binding(20));
    for i in 0..256 {
        for c in clients.clone() {
            let public = if c == clients.start { RICH } else { 0 };
            pt::add(&mut table.words, &table.store, c, ipid(i), public, RICH).unwrap();
        }
    }
    table
}

/// Identifiers that share both buckets of the library's indexes (`table_columns/specs/Buckets.antt`), so that each is searched for:
/// in the product the bits that the first is taken from are zero, and so are the lowest twelve, which are the second.
pub fn one_bucket() -> impl Fn(u64) -> u64 {
    let bucket = |x: u64| (x % (1 << 32) * 961_217_543 + (x >> 32) * 699_039_225) >> 20 & 0xFFF;
    let found: Vec<u64> = (0..)
        .map(|n| spread(n) >> 12 << 12)
        .filter(|&x| bucket(x) == 0)
        .take(1400)
        .collect();
    move |n| found.get(n as usize).copied().unwrap_or(0)
}
