//! Object references and contexts.

use crate::error::answered;
use crate::{ffi, list, Guid, Oid, Oxid, Part, Result, SecurityBinding, StringBinding};
use core::iter::from_fn;
use core::ops::Range;

impl ffi::Place {
    pub(crate) fn range(self) -> Result<Range<usize>> {
        answered(self.answer, self.from..self.to)
    }
}

/// The standard object block (STDOBJREF).
#[repr(C)]
#[derive(Clone, Copy, Debug, Default, PartialEq, Eq)]
pub struct Block {
    /// The flags; [`Block::NO_PING`] is one.
    pub flags: u32,
    /// Public references that go with it.
    pub public: u32,
    /// The exporter.
    pub oxid: Oxid,
    /// The object.
    pub oid: Oid,
    /// The interface.
    pub ipid: Guid,
}

impl Block {
    /// The bit of the flags that means no pinging.
    pub const NO_PING: u32 = 0x1000;

    /// Whether the object is not pinged.
    pub fn no_ping(&self) -> bool {
        self.flags & Block::NO_PING != 0
    }
}

/// The fixed fields of an object reference (OBJREF). A field that its form does not have is zero when read, and not written.
#[repr(C)]
#[derive(Clone, Copy, Debug, Default, PartialEq, Eq)]
pub struct Reference {
    /// The form: [`Reference::STANDARD`], [`HANDLER`](Reference::HANDLER), [`CUSTOM`](Reference::CUSTOM) or [`EXTENDED`](Reference::EXTENDED).
    pub flags: u32,
    /// Which interface the object has.
    pub iid: Guid,
    /// The object block; of all forms but a custom one.
    pub block: Block,
    /// The handler's CLSID, or the unmarshaler's of a custom one.
    pub clsid: Guid,
    /// The size of a custom one's extension.
    pub extension: u32,
    /// What a custom one says of the size of its object data.
    pub size: u32,
    /// What an extended one's element is.
    pub element: Guid,
}

impl Reference {
    /// The four bytes that a reference begins with.
    pub const SIGNATURE: [u8; 4] = *b"MEOW";

    /// The flags of a standard reference.
    pub const STANDARD: u32 = 1;
    /// The flags of a handler reference.
    pub const HANDLER: u32 = 2;
    /// The flags of a custom reference.
    pub const CUSTOM: u32 = 4;
    /// The flags of an extended reference.
    pub const EXTENDED: u32 = 8;

    /// A standard reference.
    pub fn standard(iid: Guid, block: Block) -> Reference {
        Reference {
            flags: Reference::STANDARD,
            iid,
            block,
            ..Reference::default()
        }
    }

    /// A handler reference, with the handler's CLSID.
    pub fn handler(iid: Guid, block: Block, clsid: Guid) -> Reference {
        Reference {
            flags: Reference::HANDLER,
            iid,
            block,
            clsid,
            ..Reference::default()
        }
    }

    /// A custom reference, with its unmarshaler's CLSID and its two sizes.
    pub fn custom(iid: Guid, clsid: Guid, extension: u32, size: u32) -> Reference {
        Reference {
            flags: Reference::CUSTOM,
            iid,
            clsid,
            extension,
            size,
            ..Reference::default()
        }
    }

    /// An extended reference, with the identifier of its element.
    pub fn extended(iid: Guid, block: Block, element: Guid) -> Reference {
        Reference {
            flags: Reference::EXTENDED,
            iid,
            block,
            element,
            ..Reference::default()
        }
    }

    /// Whether the bytes are a reference.
    #[inline]
    pub fn judge(bytes: &[u8]) -> Result<()> {
        let number = archive!(rimonakh_reference_answer([bytes]));
        answered(number, ())
    }

    /// Reads the fixed fields of a reference.
    #[inline]
    pub fn read(bytes: &[u8]) -> Result<Reference> {
        let r = archive!(rimonakh_reference_read([bytes]));
        answered(r.answer, r.reference)
    }

    /// The binding list (of a custom reference the object data) of a reference.
    #[inline]
    pub fn tail(bytes: &[u8]) -> Result<&[u8]> {
        let place = archive!(rimonakh_reference_tail([bytes]));
        Ok(&bytes[place.range()?])
    }

    /// Where binding `k` of a part of a reference's list stands, from its first word through its zero word.
    #[inline]
    pub fn locate(bytes: &[u8], part: Part, k: usize) -> Result<Range<usize>> {
        let place = match part {
            Part::Strings => archive!(rimonakh_reference_string_binding([bytes], k)),
            Part::Security => archive!(rimonakh_reference_security_binding([bytes], k)),
        };
        place.range()
    }

    /// Binding `k` of a part of a reference's list.
    pub fn binding(bytes: &[u8], part: Part, k: usize) -> Result<&[u8]> {
        Ok(&bytes[Reference::locate(bytes, part, k)?])
    }

    /// The binding list of a reference; a custom one has none.
    fn list(bytes: &[u8]) -> Result<Option<&[u8]>> {
        let tail = Reference::tail(bytes)?;
        let custom = bytes[4..8] == Reference::CUSTOM.to_le_bytes();
        Ok((!custom).then_some(tail))
    }

    /// The bindings of a part of a reference's list, in one pass. A custom reference has none.
    #[inline]
    pub fn bindings(bytes: &[u8], part: Part) -> Result<impl Iterator<Item = &[u8]>> {
        let of = Reference::list(bytes)?.map(|list| list::bindings(list, part));
        Ok(of.transpose()?.into_iter().flatten())
    }

    /// The string bindings of a reference, decoded, in one pass. A custom reference has none.
    #[inline]
    pub fn strings(bytes: &[u8]) -> Result<impl Iterator<Item = StringBinding<'_>>> {
        let of = Reference::list(bytes)?.map(list::strings);
        Ok(of.transpose()?.into_iter().flatten())
    }

    /// The security bindings of a reference, decoded, in one pass. A custom reference has none.
    #[inline]
    pub fn securities(bytes: &[u8]) -> Result<impl Iterator<Item = SecurityBinding<'_>>> {
        let of = Reference::list(bytes)?.map(list::securities);
        Ok(of.transpose()?.into_iter().flatten())
    }

    /// Where the data of element `k` of an extended reference stands, without its padding.
    #[inline]
    pub fn locate_element(bytes: &[u8], k: usize) -> Result<Range<usize>> {
        let place = archive!(rimonakh_reference_element([bytes], k));
        place.range()
    }

    /// The data of element `k` of an extended reference. It is a reference where it begins with [`Reference::SIGNATURE`].
    pub fn element(bytes: &[u8], k: usize) -> Result<&[u8]> {
        Ok(&bytes[Reference::locate_element(bytes, k)?])
    }

    /// Where the data of property `k` of the context in a custom reference stands.
    #[inline]
    pub fn locate_property(bytes: &[u8], k: usize) -> Result<Range<usize>> {
        let place = archive!(rimonakh_reference_property([bytes], k));
        place.range()
    }

    /// The data of property `k` of the context in a custom reference.
    pub fn property(bytes: &[u8], k: usize) -> Result<&[u8]> {
        Ok(&bytes[Reference::locate_property(bytes, k)?])
    }

    /// Writes the reference with its list or object data, and the data of its element, at the front of `buffer` and keeps the
    /// rest. Answers the length.
    #[inline]
    pub fn write(&self, tail: &[u8], content: &[u8], buffer: &mut [u8]) -> Result<usize> {
        let Block {
            flags,
            public,
            oxid,
            oid,
            ipid,
        } = self.block;
        let r = archive!(rimonakh_reference_write(
            self.flags, {self.iid}, flags, public, oxid.0, oid.0, {ipid}, {self.clsid},
            self.extension, self.size, {self.element}, [tail], [content], [mut buffer]
        ));
        answered(r.answer, r.length)
    }
}

/// The fields of a context that are not fixed. A context is the object data of a custom reference with the CLSID
/// [`Context::MARSHALER`].
#[repr(C)]
#[derive(Clone, Copy, Debug, Default, PartialEq, Eq)]
pub struct Context {
    /// Which context it is.
    pub id: Guid,
    /// Kept as it is.
    pub reserved: u32,
    /// Kept as it is.
    pub marshal: u32,
    /// The number of properties.
    pub count: u32,
    /// Kept as it is.
    pub frozen: u32,
}

impl Context {
    /// The context marshaler's CLSID.
    pub const MARSHALER: Guid = Guid([0x3B, 3, 0, 0, 0, 0, 0, 0, 0xC0, 0, 0, 0, 0, 0, 0, 0x46]);

    /// Reads the fields of a context.
    #[inline]
    pub fn read(bytes: &[u8]) -> Result<Context> {
        let r = archive!(rimonakh_context_read([bytes]));
        answered(r.answer, r.context)
    }

    /// Writes the context with the bytes of its properties, one after the other, at the front of `buffer` and keeps the rest.
    /// Answers the length.
    #[inline]
    pub fn write(&self, properties: &[u8], buffer: &mut [u8]) -> Result<usize> {
        let r = archive!(rimonakh_context_write(
            {self.id}, self.reserved, self.marshal, self.count, self.frozen, [properties], [mut buffer]
        ));
        answered(r.answer, r.length)
    }
}

/// The fields of a context's property before its data.
#[repr(C)]
#[derive(Clone, Copy, Debug, Default, PartialEq, Eq)]
pub struct Property {
    /// The CLSID.
    pub clsid: Guid,
    /// The policy.
    pub policy: Guid,
    /// [`Property::PROPAGATE`], [`EXPOSE`](Property::EXPOSE) or [`ENVOY`](Property::ENVOY).
    pub flags: u32,
}

impl Property {
    /// The flags of a property that goes with the context.
    pub const PROPAGATE: u32 = 1;
    /// The flags of a property that is exposed.
    pub const EXPOSE: u32 = 2;
    /// The flags of a property for an envoy.
    pub const ENVOY: u32 = 4;

    /// Reads the fields of property `k` of a context.
    #[inline]
    pub fn read(bytes: &[u8], k: usize) -> Result<Property> {
        let r = archive!(rimonakh_context_property([bytes], k));
        answered(r.answer, r.property)
    }

    /// The properties of a context in one pass: the fields of each, and where its data stands.
    #[inline]
    pub fn all(bytes: &[u8]) -> Result<impl Iterator<Item = (Property, Range<usize>)> + '_> {
        let start = archive!(rimonakh_context_properties([bytes]));
        let (mut at, mut left) = answered(start.answer, (start.at, start.left))?;
        Ok(from_fn(move || {
            let step = archive!(rimonakh_context_next_property([bytes], at, left));
            answered(step.answer, ()).ok()?;
            (at, left) = (step.to, step.left);
            Some((step.property, step.from..step.to))
        }))
    }

    /// Writes the property with its data at the front of `buffer` and keeps the rest. Answers the length.
    #[inline]
    pub fn write(&self, content: &[u8], buffer: &mut [u8]) -> Result<usize> {
        let r = archive!(rimonakh_property_write(
            {self.clsid}, {self.policy}, self.flags, [content], [mut buffer]
        ));
        answered(r.answer, r.length)
    }
}
