//! Object references (OBJREF), with what stands inside them.

use super::{lists, Fault, Walk, Walked};
use rimonakh::limits::MOST_LEVELS;
use rimonakh::{Context, Error, Reference};

/// Before the list and before the elements of an extended reference.
const EXTENDED_SIGNATURE: u32 = 0x4E53_5956;

/// Why bytes are no reference.
pub fn reference(bytes: &[u8]) -> Walked<()> {
    let mut nil = None;
    let mut walk = Walk::new(bytes, Error::Short, Error::Layout);
    level(&mut walk, 1, &mut nil)?;
    nil.map_or(Ok(()), Err)
}

/// A reference of a depth. The first identifier in it that is zero is kept: it counts after the whole layout.
fn level(walk: &mut Walk, depth: usize, nil: &mut Option<Fault>) -> Walked<()> {
    if depth > MOST_LEVELS {
        return Err(Fault {
            number: Error::TooDeep.number(),
            at: walk.place(),
            rule: format!("a reference at depth {depth}, where {MOST_LEVELS} is the deepest"),
        });
    }
    let flags = header(walk)?;
    let fixed = match flags {
        Reference::STANDARD => 40,
        Reference::HANDLER => 40 + 16,
        Reference::CUSTOM => 16 + 4 + 4,
        _ => 40 + 4,
    };
    let start = walk.place();
    let form = crate::names::form(flags);
    let fields = walk.take(fixed, format_args!("the fixed part of {form} reference"))?;
    if flags == Reference::CUSTOM {
        return match fields[..16] == Context::MARSHALER.0 {
            true => context(walk),
            false => Ok(()),
        };
    }
    keep_nil(fields, start, nil);
    if flags == Reference::EXTENDED {
        return extended(walk, depth, &fields[40..], nil);
    }
    lists::front(walk)?;
    walk.end("the reference")
}

/// The form's flag, of the 24 bytes before what the forms differ in.
fn header(walk: &mut Walk) -> Walked<u32> {
    let start = walk.place();
    let header = walk.take(24, "the header of a reference")?;
    if !header.starts_with(&Reference::SIGNATURE) {
        let found = crate::show::hex(&header[..4]);
        return walk.fault(
            start,
            format!("the signature is {found}, not 4d 45 4f 57 (MEOW)"),
        );
    }
    let flags = u32::from_le_bytes([header[4], header[5], header[6], header[7]]);
    match flags {
        Reference::STANDARD | Reference::HANDLER | Reference::CUSTOM | Reference::EXTENDED => {
            Ok(flags)
        }
        _ => walk.fault(
            start + 4,
            format!("the flags are {flags:#x}; a form has 1, 2, 4 or 8"),
        ),
    }
}

/// Looks at the identifiers of a block.
fn keep_nil(block: &[u8], start: usize, nil: &mut Option<Fault>) {
    let fields = [("OXID", 8..16), ("OID", 16..24), ("IPID", 24..40)];
    let is_nil = |place: &std::ops::Range<usize>| block[place.clone()].iter().all(|b| *b == 0);
    let found = fields.into_iter().find(|(_, place)| is_nil(place));
    let fault = found.map(|(name, place)| Fault {
        number: Error::NilIdentifier.number(),
        at: start + place.start,
        rule: format!("the {name} is zero"),
    });
    *nil = nil.take().or(fault);
}

/// What an extended reference has after its block: a signature, a list, the number of elements, a signature, an element.
fn extended(
    walk: &mut Walk,
    depth: usize,
    signature: &[u8],
    nil: &mut Option<Fault>,
) -> Walked<()> {
    let mut first = walk.inside(signature, walk.place() - 4);
    first.fixed(EXTENDED_SIGNATURE, "the first signature of the elements")?;
    lists::front(walk)?;
    walk.fixed(1, "the number of elements")?;
    walk.fixed(EXTENDED_SIGNATURE, "the second signature of the elements")?;
    element(walk, depth, nil)?;
    walk.end("the reference")
}

fn element(walk: &mut Walk, depth: usize, nil: &mut Option<Fault>) -> Walked<()> {
    let at = walk.place();
    if walk.array("the identifier of the element")? == [0; 16] {
        return walk.fault(at, "the identifier of the element is zero");
    }
    let at = walk.place();
    let size = walk.u32("the size of the element")?;
    if size == 0 {
        return walk.fault(at, "the size of the element is 0");
    }
    let at = walk.place();
    let rounded = walk.u32("the rounded size of the element")?;
    let right = u64::from(size).next_multiple_of(8);
    if u64::from(rounded) != right {
        let rule = format!("the rounded size of {size} bytes is {rounded}, not {right}");
        return walk.fault(at, rule);
    }
    let start = walk.place();
    let data = walk.take(right, "the data of the element")?;
    let (data, padding) = data.split_at(size as usize);
    if data.starts_with(&Reference::SIGNATURE) {
        level(&mut walk.inside(data, start), depth + 1, nil)?;
    }
    match padding.iter().position(|b| *b != 0) {
        Some(k) => walk.fault(
            start + data.len() + k,
            "the padding behind the element is not zero",
        ),
        None => Ok(()),
    }
}

/// The context that is a custom reference's object data.
fn context(walk: &mut Walk) -> Walked<()> {
    for what in ["major", "minor"] {
        let at = walk.place();
        match walk.u16(format_args!("the {what} version of the context"))? {
            1 => (),
            n => {
                let rule = format!("the {what} version of the context is {n}, not 1");
                return walk.fault(at, rule);
            }
        }
    }
    walk.take(16, "the identifier of the context")?;
    walk.fixed(2, "the flags of the context")?;
    walk.u32("the reserved field of the context")?;
    walk.fixed(0, "the number of the context's extents")?;
    walk.fixed(0, "the size of the context's extents")?;
    walk.u32("the marshal flags of the context")?;
    let count = walk.u32("the number of the context's properties")?;
    walk.u32("the frozen mark of the context")?;
    for k in 0..count {
        property(walk, k)?;
    }
    walk.end("the context")
}

fn property(walk: &mut Walk, k: u32) -> Walked<()> {
    walk.take(16, format_args!("the class of property {k}"))?;
    walk.take(16, format_args!("the policy of property {k}"))?;
    let at = walk.place();
    match walk.u32(format_args!("the flags of property {k}"))? {
        1 | 2 | 4 => (),
        n => {
            let rule = format!("the flags of property {k} are {n:#x}; they are 1, 2 or 4");
            return walk.fault(at, rule);
        }
    }
    let size = walk.u32(format_args!("the size of property {k}"))?;
    walk.take(size.into(), format_args!("the data of property {k}"))?;
    Ok(())
}
