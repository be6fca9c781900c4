//! What several tests make.
#![allow(dead_code)] // each test uses its part

use rimonakh::{Block, Guid, Oid, Oxid, Reference, Result};

pub fn guid(n: u64) -> Guid {
    Guid(u128::from(n).to_le_bytes())
}

/// Extended references one in the other, so many, around eight bytes of other data.
pub fn nest(levels: usize) -> Result<Vec<u8>> {
    let (oxid, oid, ipid) = (Oxid(1), Oid(1), guid(1));
    let block = Block {
        flags: 0,
        public: 1,
        oxid,
        oid,
        ipid,
    };
    let mut nest = vec![1; 8];
    for _ in 0..levels {
        let mut bytes = vec![0; nest.len() + 256];
        let extended = Reference::extended(guid(1), block, guid(1));
        let length = extended.write(&[0; 4], &nest, &mut bytes)?;
        bytes.truncate(length);
        nest = bytes;
    }
    Ok(nest)
}
