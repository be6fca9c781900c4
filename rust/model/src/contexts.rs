//! The context in custom object data (MS-DCOM, section 2.2.20) and its properties (section 2.2.20.1).

use crate::bytes::{put, Reading};
use crate::Guid;
use std::ops::Range;

/// The class whose custom references carry a context.
pub const MARSHALER: Guid = [0x3B, 3, 0, 0, 0, 0, 0, 0, 0xC0, 0, 0, 0, 0, 0, 0, 0x46];

/// The fields that MS-DCOM does not fix.
#[derive(Clone, Copy, Debug, Default, PartialEq, Eq)]
pub struct Context {
    pub id: Guid,
    pub reserved: u32,
    pub marshal: u32,
    pub count: u32,
    pub frozen: u32,
}

#[derive(Clone, Copy, Debug, Default, PartialEq, Eq)]
pub struct Property {
    pub clsid: Guid,
    pub policy: Guid,
    pub flags: u32,
}

/// A property, and where its data stands in the context.
pub type Placed = (Property, Range<usize>);

fn property(s: &mut Reading) -> Result<Placed, u32> {
    let made = Property {
        clsid: s.guid()?,
        policy: s.guid()?,
        flags: s.one_of(&[1, 2, 4])?,
    };
    let size = s.u32()? as usize;
    Ok((made, s.skip(size)?))
}

/// The bytes as one whole context.
pub fn context(bytes: &[u8]) -> Result<(Context, Vec<Placed>), u32> {
    let mut s = Reading::new(bytes);
    s.version(1)?;
    s.version(1)?;
    let id = s.guid()?;
    s.one_of(&[2])?; // by value
    let reserved = s.u32()?;
    s.one_of(&[0])?; // the number of extents, and their size
    s.one_of(&[0])?;
    let (marshal, count, frozen) = (s.u32()?, s.u32()?, s.u32()?);
    let mut properties = Vec::new();
    for _ in 0..count {
        properties.push(property(&mut s)?);
    }
    s.end()?;
    let made = Context {
        id,
        reserved,
        marshal,
        count,
        frozen,
    };
    Ok((made, properties))
}

pub fn read_context(bytes: &[u8]) -> Result<Context, u32> {
    Ok(context(bytes)?.0)
}

/// Property `k` of a context, and where its data stands.
pub fn read_property(bytes: &[u8], k: usize) -> Result<Placed, u32> {
    context(bytes)?.1.get(k).cloned().ok_or(24)
}

/// Writes a property with its data.
pub fn write_property(p: &Property, data: &[u8], buffer: &mut [u8]) -> Result<usize, u32> {
    if ![1, 2, 4].contains(&p.flags) {
        return Err(14);
    }
    let size = u32::try_from(data.len()).map_err(|_| 14u32)?;
    let mut made = p.clsid.to_vec();
    made.extend(p.policy);
    made.extend(p.flags.to_le_bytes());
    made.extend(size.to_le_bytes());
    made.extend(data);
    put(&made, buffer)
}

/// Writes a context with the bytes of its properties; what could not be read is refused.
pub fn write_context(c: &Context, properties: &[u8], buffer: &mut [u8]) -> Result<usize, u32> {
    let mut made = vec![1, 0, 1, 0];
    made.extend(c.id);
    made.extend(2u32.to_le_bytes());
    made.extend(c.reserved.to_le_bytes());
    made.extend([0; 8]);
    made.extend(c.marshal.to_le_bytes());
    made.extend(c.count.to_le_bytes());
    made.extend(c.frozen.to_le_bytes());
    made.extend(properties);
    context(&made)?;
    put(&made, buffer)
}
