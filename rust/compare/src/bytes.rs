//! References, binding lists, contexts and call headers, proper and damaged, compared with the model.

use crate::generate::{clsid, context, damage, list, property, random_data, reference};
use crate::headers;
use crate::random::Random;
use crate::shrink::shrink;
use crate::tally::Tally;
use crate::Differs;
use model::bytes as m;
use model::contexts as c;
use rimonakh::{Block, Context, Guid, Oid, Oxid, Part, Property, Reference};
use std::fmt::Debug;
use std::ops::Range;
use std::panic::catch_unwind;

#[derive(Clone, Copy, Debug)]
enum Kind {
    Reference,
    List,
    /// A call header with its extensions.
    Header(headers::Kind),
    Context,
    /// A list to be written, with the words of the bytes.
    WrittenList,
    /// A reference to be written, with the bytes as its list or object data.
    Written,
    /// A context and a property to be written, with the bytes as the context's properties.
    WrittenContext,
}

/// One input; the seed gives the fields that are not in the bytes.
struct Case {
    kind: Kind,
    bytes: Vec<u8>,
    seed: u64,
}

impl Case {
    fn new(random: &mut Random) -> Case {
        let kind = random.pick(&[
            Kind::Reference,
            Kind::Reference,
            Kind::Reference,
            Kind::List,
            Kind::List,
            Kind::Header(headers::Kind::This),
            Kind::Header(headers::Kind::That),
            Kind::Context,
            Kind::WrittenList,
            Kind::Written,
            Kind::Written,
            Kind::WrittenContext,
        ]);
        let mut bytes = match kind {
            Kind::Reference => {
                let oxid = random.word();
                reference(random, oxid)
            }
            Kind::Written if random.once_in(3) => context(random),
            Kind::List | Kind::WrittenList | Kind::Written => list(random),
            Kind::Context => context(random),
            Kind::WrittenContext => {
                let mut properties = Vec::new();
                for _ in 0..random.below(4) {
                    property(random, &mut properties);
                }
                properties
            }
            Kind::Header(kind) => headers::bytes(random, kind),
        };
        match random.below(10) {
            _ if matches!(kind, Kind::Header(_)) => {}
            0..=4 => damage(random, &mut bytes),
            5 => {
                let n = random.below(120);
                bytes = random.bytes(n);
            }
            _ => {}
        }
        Case {
            kind,
            bytes,
            seed: random.word(),
        }
    }

    fn fails(&self, bytes: &[u8]) -> Option<String> {
        let mut tally = Tally::default();
        let (kind, seed, bytes) = (self.kind, self.seed, bytes.to_vec());
        let checked = catch_unwind(move || check(kind, &bytes, seed, &mut tally).err());
        checked.unwrap_or_else(|_| Some("it panicked".to_string()))
    }
}

fn check(kind: Kind, s: &[u8], seed: u64, tally: &mut Tally) -> Result<(), String> {
    let mut random = Random::new(seed);
    match kind {
        Kind::Reference => check_reference(s, &mut random, tally),
        Kind::List => check_list(s, tally),
        Kind::Header(kind) => headers::check(kind, s, &mut random, tally),
        Kind::Context => check_context(s, &mut random, tally),
        Kind::WrittenList => check_list_written(s, &mut random, tally),
        Kind::Written => {
            let fields = written_fields(&mut random);
            let content = written_content(&mut random);
            check_written(&fields, s, &content, &mut random, tally)
        }
        Kind::WrittenContext => {
            let fields = c::Context {
                count: random.below(4) as u32,
                ..context_fields(&mut random)
            };
            check_context_written(&fields, s, &mut random, tally)?;
            check_property_written(&mut random, tally)
        }
    }
}

/// A reference to be written: any flags, and now and then an identifier, half an IPID or the element's identifier is zero.
fn written_fields(random: &mut Random) -> m::Reference {
    let mut fields = m::Reference {
        flags: random.pick(&[0, 1, 1, 2, 2, 3, 4, 4, 5, 8, 8, 8, 16]),
        iid: guid(random),
        block_flags: random.word() as u32,
        public: random.word() as u32,
        oxid: random.word(),
        oid: random.word(),
        ipid: guid(random),
        clsid: clsid(random),
        extension: random.word() as u32,
        size: random.word() as u32,
        element: guid(random),
    };
    match random.below(20) {
        0 => fields.oxid = 0,
        1 => fields.oid = 0,
        2 => fields.ipid = [0; 16],
        3 => fields.ipid[..8].fill(0),
        4 => fields.ipid[8..].fill(0),
        5 => fields.element = [0; 16],
        6 => fields.element[..8].fill(0),
        7 => fields.element[8..].fill(0),
        _ => {}
    }
    fields
}

/// Data of an element to be written: none, any bytes, or a reference, which now and then is damaged.
fn written_content(random: &mut Random) -> Vec<u8> {
    let mut content = match random.below(8) {
        0 => vec![],
        1 | 2 => random_data(random),
        _ => {
            let oxid = random.word();
            reference(random, oxid)
        }
    };
    if random.once_in(4) {
        damage(random, &mut content);
    }
    content
}

fn context_fields(random: &mut Random) -> c::Context {
    c::Context {
        id: guid(random),
        reserved: random.word() as u32,
        marshal: random.word() as u32,
        count: random.word() as u32,
        frozen: random.word() as u32,
    }
}

pub fn guid(random: &mut Random) -> model::Guid {
    random.bytes(16).try_into().unwrap()
}

/// Whether both sides answer the same.
pub fn same<T: PartialEq + Debug>(
    what: &str,
    answer: Result<T, impl Into<u32>>,
    demanded: Result<T, u32>,
    tally: &mut Tally,
) -> Result<(), String> {
    let answer = answer.map_err(Into::into);
    tally.count(*demanded.as_ref().err().unwrap_or(&0));
    if answer == demanded {
        Ok(())
    } else {
        Err(format!(
            "{what}: answered {answer:?}, demanded {demanded:?}"
        ))
    }
}

/// What there is by number, up to the first number that has nothing.
fn numbered<T>(number: impl Fn(usize) -> Result<T, u32>) -> Result<Vec<T>, u32> {
    (0..)
        .map(number)
        .take_while(|x| !matches!(x, Err(24)))
        .collect()
}

/// Whether plain Rust answers what is demanded.
pub fn plain_same<T: PartialEq + Debug>(
    answer: Result<T, u32>,
    demanded: Result<T, u32>,
) -> Result<(), String> {
    if answer == demanded {
        return Ok(());
    }
    Err(format!(
        "plain Rust answered {answer:?}, demanded {demanded:?}"
    ))
}

/// The bytes of plain Rust's GUID.
pub fn plain_guid(g: plain::Guid) -> [u8; 16] {
    (g.low as u128 | (g.high as u128) << 64).to_le_bytes()
}

/// Whether both sides write the same into a buffer of a length near `n`, and keep the rest.
pub fn same_written<T: PartialEq + Debug, E: Into<u32>>(
    what: &str,
    n: usize,
    random: &mut Random,
    tally: &mut Tally,
    write: impl Fn(&mut [u8]) -> Result<T, E>,
    demand: impl Fn(&mut [u8]) -> Result<T, u32>,
) -> Result<(), String> {
    let room = random.pick(&[0, n.saturating_sub(1), n, n, n + 1, n + 9]);
    let mut written = random.bytes(room);
    let mut demanded = written.clone();
    same(what, write(&mut written), demand(&mut demanded), tally)?;
    if written == demanded {
        Ok(())
    } else {
        Err(format!("{what}: wrote {written:?}, demanded {demanded:?}"))
    }
}

const PARTS: [(Part, m::Part); 2] = [
    (Part::Strings, m::Part::Strings),
    (Part::Security, m::Part::Security),
];

fn check_list(s: &[u8], tally: &mut Tally) -> Result<(), String> {
    use rimonakh::list;
    same("list", list::judge(s), m::list(s).map(|_| ()), tally)?;
    let front = list::front(s).map(<[u8]>::len);
    same(
        "list at the front",
        front,
        m::front_list(s).map(|l| l.length),
        tally,
    )?;
    for (part, of) in PARTS {
        for k in [0, 1, 2, usize::MAX] {
            same(
                "binding",
                list::locate(s, part, k),
                m::list_binding(s, of, k),
                tally,
            )?;
        }
    }
    let places = |of| list::places(s, of).map(Iterator::collect);
    let (strings, security) = (places(Part::Strings), places(Part::Security));
    same(
        "strings in one pass",
        strings,
        m::list(s).map(|l| l.strings),
        tally,
    )?;
    same(
        "securities in one pass",
        security,
        m::list(s).map(|l| l.security),
        tally,
    )?;
    let plain = plain::bytes::bindings(s).map(|(a, b)| (a.collect(), b.collect()));
    let bytes = |of: &[Range<usize>]| of.iter().map(|r| &s[r.clone()]).collect::<Vec<_>>();
    let demanded = m::list(s).map(|l| (bytes(&l.strings), bytes(&l.security)));
    plain_same(plain, demanded)
}

/// The words of a list's bytes, cut into two parts at its S, each without its last word, are written again.
fn check_list_written(s: &[u8], random: &mut Random, tally: &mut Tally) -> Result<(), String> {
    let word = |w: &[u8]| u16::from_le_bytes([w[0], w[1]]);
    let words: Vec<u16> = s.chunks_exact(2).map(word).collect();
    let (head, words) = words.split_at(words.len().min(2));
    let cut = head
        .get(1)
        .map_or(0, |split| words.len().min((*split).into()));
    let row = |words: &[u16]| words.split_last().map_or(vec![], |(_, row)| row.to_vec());
    let (strings, security) = (row(&words[..cut]), row(&words[cut..]));
    let n = 8 + 2 * (strings.len() + security.len());
    let write = |buffer: &mut [u8]| rimonakh::list::write(&strings, &security, buffer);
    let demand = |buffer: &mut [u8]| m::write_list(&strings, &security, buffer);
    same_written("list written", n, random, tally, write, demand)
}

fn check_reference(s: &[u8], random: &mut Random, tally: &mut Tally) -> Result<(), String> {
    let demanded = m::read_reference(s);
    let fields = demanded.clone().map(|(fields, _)| fields);
    same(
        "reference",
        Reference::judge(s),
        demanded.clone().map(|_| ()),
        tally,
    )?;
    same(
        "reference read",
        Reference::read(s).map(plain_fields),
        fields,
        tally,
    )?;
    let tail = demanded.clone().map(|(_, tail)| &s[tail]);
    same("list or object data", Reference::tail(s), tail, tally)?;
    for (part, of) in PARTS {
        for k in [0, 1, 2, usize::MAX] {
            let place = m::reference_binding(s, of, k);
            same(
                "binding of a reference",
                Reference::locate(s, part, k),
                place,
                tally,
            )?;
        }
        let walked = Reference::bindings(s, part).map(Iterator::collect);
        let numbered = numbered(|k| m::reference_binding(s, of, k).map(|place| &s[place]));
        same("bindings in one pass", walked, numbered, tally)?;
    }
    for k in [0, 1, usize::MAX] {
        same(
            "element",
            Reference::locate_element(s, k),
            m::reference_element(s, k),
            tally,
        )?;
    }
    for k in [0, 1, 2, usize::MAX] {
        same(
            "property of a reference",
            Reference::locate_property(s, k),
            m::reference_property(s, k),
            tally,
        )?;
    }
    let plain = plain::bytes::read_reference(s).map(|(_, tail)| tail);
    plain_same(plain, demanded.clone().map(|(_, tail)| tail))?;
    match demanded {
        Ok((fields, tail)) => {
            let content = m::reference_element(s, 0).unwrap_or_default();
            check_written(&fields, &s[tail], &s[content], random, tally)
        }
        Err(_) => Ok(()),
    }
}

fn check_written(
    fields: &m::Reference,
    tail: &[u8],
    content: &[u8],
    random: &mut Random,
    tally: &mut Tally,
) -> Result<(), String> {
    let n = tail.len()
        + match fields.flags {
            1 => 64,
            2 => 80,
            8 => 68 + 32 + content.len().next_multiple_of(8),
            _ => 48,
        };
    let library = typed_fields(fields);
    let write = |buffer: &mut [u8]| library.write(tail, content, buffer);
    let demand = |buffer: &mut [u8]| m::write_reference(fields, tail, content, buffer);
    same_written("reference written", n, random, tally, write, demand)
}

fn check_context(s: &[u8], random: &mut Random, tally: &mut Tally) -> Result<(), String> {
    let demanded = c::read_context(s);
    same(
        "context",
        Context::read(s).map(plain_context),
        demanded,
        tally,
    )?;
    plain_same(plain::bytes::read_context(s).map(careful_context), demanded)?;
    for k in [0, 1, 2, usize::MAX] {
        same(
            "property",
            Property::read(s, k).map(plain_property),
            c::read_property(s, k).map(|(property, _)| property),
            tally,
        )?;
    }
    let all = c::context(s).map(|(_, all)| all);
    let walked =
        Property::all(s).map(|all| all.map(|(p, data)| (plain_property(p), data)).collect());
    same("properties in one pass", walked, all.clone(), tally)?;
    let plain = plain::bytes::properties(s).map(|all| all.map(plain_placed).collect());
    plain_same(plain, all)?;
    match demanded {
        Ok(fields) => check_context_written(&fields, &s[48..], random, tally),
        Err(_) => Ok(()),
    }
}

fn careful_context(x: plain::bytes::Context) -> c::Context {
    c::Context {
        id: plain_guid(x.id),
        reserved: x.reserved,
        marshal: x.marshal,
        count: x.count,
        frozen: x.frozen,
    }
}

fn plain_placed(p: plain::bytes::Property) -> c::Placed {
    let property = c::Property {
        clsid: plain_guid(p.clsid),
        policy: plain_guid(p.policy),
        flags: p.flags,
    };
    (property, p.data)
}

fn check_context_written(
    fields: &c::Context,
    properties: &[u8],
    random: &mut Random,
    tally: &mut Tally,
) -> Result<(), String> {
    let library = typed_context(fields);
    let write = |buffer: &mut [u8]| library.write(properties, buffer);
    let demand = |buffer: &mut [u8]| c::write_context(fields, properties, buffer);
    let n = 48 + properties.len();
    same_written("context written", n, random, tally, write, demand)
}

fn check_property_written(random: &mut Random, tally: &mut Tally) -> Result<(), String> {
    let fields = c::Property {
        clsid: guid(random),
        policy: guid(random),
        flags: random.pick(&[0, 1, 2, 3, 4, 5, 8, 1 << 31]),
    };
    let size = random.below(20);
    let content = random.bytes(size);
    let library = typed_property(&fields);
    let write = |buffer: &mut [u8]| library.write(&content, buffer);
    let demand = |buffer: &mut [u8]| c::write_property(&fields, &content, buffer);
    let n = 40 + content.len();
    same_written("property written", n, random, tally, write, demand)
}

pub fn plain_fields(r: Reference) -> m::Reference {
    m::Reference {
        flags: r.flags,
        iid: r.iid.0,
        block_flags: r.block.flags,
        public: r.block.public,
        oxid: r.block.oxid.0,
        oid: r.block.oid.0,
        ipid: r.block.ipid.0,
        clsid: r.clsid.0,
        extension: r.extension,
        size: r.size,
        element: r.element.0,
    }
}

pub fn typed_fields(r: &m::Reference) -> Reference {
    Reference {
        flags: r.flags,
        iid: Guid(r.iid),
        block: Block {
            flags: r.block_flags,
            public: r.public,
            oxid: Oxid(r.oxid),
            oid: Oid(r.oid),
            ipid: Guid(r.ipid),
        },
        clsid: Guid(r.clsid),
        extension: r.extension,
        size: r.size,
        element: Guid(r.element),
    }
}

pub fn plain_context(x: Context) -> c::Context {
    c::Context {
        id: x.id.0,
        reserved: x.reserved,
        marshal: x.marshal,
        count: x.count,
        frozen: x.frozen,
    }
}

pub fn typed_context(x: &c::Context) -> Context {
    Context {
        id: Guid(x.id),
        reserved: x.reserved,
        marshal: x.marshal,
        count: x.count,
        frozen: x.frozen,
    }
}

pub fn plain_property(x: Property) -> c::Property {
    c::Property {
        clsid: x.clsid.0,
        policy: x.policy.0,
        flags: x.flags,
    }
}

pub fn typed_property(x: &c::Property) -> Property {
    Property {
        clsid: Guid(x.clsid),
        policy: Guid(x.policy),
        flags: x.flags,
    }
}

/// So many inputs. A failure prints the shortest failing input that is found.
pub fn compare(seed: u64, inputs: u64) -> Result<Tally, Differs> {
    let mut random = Random::new(seed);
    let mut tally = Tally::default();
    for n in 0..inputs {
        let case = Case::new(&mut random);
        if let Err(difference) = check(case.kind, &case.bytes, case.seed, &mut tally) {
            println!("FAILED: the library and the model differ at input {n} of seed {seed}: {difference}");
            let fewest = shrink(&case.bytes, |fewer| case.fails(fewer).is_some());
            println!(
                "the shortest failing input that was found: {:?} {fewest:02x?}, fields of seed {}",
                case.kind, case.seed
            );
            println!("{}", case.fails(&fewest).unwrap_or_default());
            return Err(Differs);
        }
    }
    Ok(tally)
}

/// Every answer number has its wire code, and so have numbers that are none.
pub fn wire_codes() -> Result<(), Differs> {
    for number in (0..100).chain([u32::MAX, 1 << 31]) {
        // SAFETY: numbers only.
        let code = unsafe { rimonakh::ffi::rimonakh_wire_code(number) };
        if code != model::wire_code(number) {
            println!("FAILED: the wire code of {number} is {code:#x}");
            return Err(Differs);
        }
    }
    Ok(())
}
