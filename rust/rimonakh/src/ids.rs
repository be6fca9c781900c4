//! Identifiers: different kinds, which can't be handed in for one another.

use core::fmt;
use core::slice;
use core::str::FromStr;

/// Identifiers that are numbers, each its own type. They are shown in hex, as traces have them.
macro_rules! numbers {
    ($($(#[$doc:meta])+ $name:ident)+) => {$(
        $(#[$doc])+
        #[repr(transparent)]
        #[derive(Clone, Copy, Default, PartialEq, Eq, PartialOrd, Ord, Hash)]
        pub struct $name(
            /// The number.
            pub u64,
        );

        impl fmt::LowerHex for $name {
            fn fmt(&self, f: &mut fmt::Formatter<'_>) -> fmt::Result {
                fmt::LowerHex::fmt(&self.0, f)
            }
        }

        impl fmt::UpperHex for $name {
            fn fmt(&self, f: &mut fmt::Formatter<'_>) -> fmt::Result {
                fmt::UpperHex::fmt(&self.0, f)
            }
        }

        impl fmt::Display for $name {
            fn fmt(&self, f: &mut fmt::Formatter<'_>) -> fmt::Result {
                write!(f, "{self:#x}")
            }
        }

        impl fmt::Debug for $name {
            fn fmt(&self, f: &mut fmt::Formatter<'_>) -> fmt::Result {
                write!(f, "{}({self:#x})", stringify!($name))
            }
        }
    )+};
}

numbers! {
    /// An exporter's number. It is shown in hex: `0x1101`, and in [`Debug`](fmt::Debug) `Oxid(0x1101)`.
    Oxid
    /// An object's number, shown in hex.
    Oid
    /// A ping set's number, shown in hex.
    SetId
}

impl Oid {
    /// The numbers of objects.
    pub(crate) fn numbers(ids: &[Oid]) -> &[u64] {
        // SAFETY: an Oid is its number, by `repr(transparent)`.
        unsafe { slice::from_raw_parts(ids.as_ptr().cast(), ids.len()) }
    }
}

/// A GUID (IID, CLSID, IPID, causality id), as its bytes on the wire.
///
/// ```
/// use rimonakh::Guid;
///
/// let iid: Guid = "{39C13A54-011E-11D0-9675-0020AFD8ADB3}".parse()?; // with braces or without, in capitals or not
/// assert_eq!(iid.0[..4], [0x54, 0x3a, 0xc1, 0x39]);
/// assert_eq!(iid.to_string(), "{39c13a54-011e-11d0-9675-0020afd8adb3}");
/// # Ok::<(), rimonakh::NoGuid>(())
/// ```
#[repr(C, align(8))]
#[derive(Clone, Copy, Default, PartialEq, Eq, PartialOrd, Ord, Hash)]
pub struct Guid(
    /// Its bytes on the wire: the first three fields have their lowest byte first.
    pub [u8; 16],
);

impl Guid {
    /// The GUID of zeros.
    pub const NIL: Guid = Guid([0; 16]);

    /// From its usual fields, as in {d1-d2-d3-d4[0..2]-d4[2..8]}.
    pub const fn new(d1: u32, d2: u16, d3: u16, d4: [u8; 8]) -> Guid {
        let (a, b, c) = (d1.to_le_bytes(), d2.to_le_bytes(), d3.to_le_bytes());
        Guid([
            a[0], a[1], a[2], a[3], b[0], b[1], c[0], c[1], d4[0], d4[1], d4[2], d4[3], d4[4],
            d4[5], d4[6], d4[7],
        ])
    }

    /// The numbers of its first and its last eight bytes, as the archive takes them.
    pub(crate) fn halves(self) -> (u64, u64) {
        let both = u128::from_le_bytes(self.0);
        (both as u64, (both >> 64) as u64)
    }
}

impl fmt::Display for Guid {
    fn fmt(&self, f: &mut fmt::Formatter<'_>) -> fmt::Result {
        let b = &self.0;
        let d1 = u32::from_le_bytes([b[0], b[1], b[2], b[3]]);
        let d2 = u16::from_le_bytes([b[4], b[5]]);
        let d3 = u16::from_le_bytes([b[6], b[7]]);
        write!(f, "{{{d1:08x}-{d2:04x}-{d3:04x}-{:02x}{:02x}-", b[8], b[9])?;
        b[10..].iter().try_for_each(|x| write!(f, "{x:02x}"))?;
        f.write_str("}")
    }
}

impl fmt::Debug for Guid {
    fn fmt(&self, f: &mut fmt::Formatter<'_>) -> fmt::Result {
        fmt::Display::fmt(self, f)
    }
}

/// A text that is no GUID's.
#[derive(Clone, Copy, Debug, PartialEq, Eq)]
pub struct NoGuid;

impl fmt::Display for NoGuid {
    fn fmt(&self, f: &mut fmt::Formatter<'_>) -> fmt::Result {
        f.write_str("a GUID is 8-4-4-4-12 hex digits, with or without braces")
    }
}

impl core::error::Error for NoGuid {}

impl FromStr for Guid {
    type Err = NoGuid;

    /// Reads the usual text: 8-4-4-4-12 hex digits, with both braces or none.
    fn from_str(text: &str) -> Result<Guid, NoGuid> {
        let inner = text.strip_prefix('{').map(|t| t.strip_suffix('}'));
        let inner = inner.unwrap_or(Some(text)).ok_or(NoGuid)?;
        let mut fields = inner.split('-');
        let mut field = |digits: usize| -> Result<u64, NoGuid> {
            let hex = fields.next().filter(|t| t.len() == digits).ok_or(NoGuid)?;
            match hex.bytes().all(|b| b.is_ascii_hexdigit()) {
                true => u64::from_str_radix(hex, 16).map_err(|_| NoGuid),
                false => Err(NoGuid), // a sign
            }
        };
        let (d1, d2, d3) = (field(8)?, field(4)?, field(4)?);
        let d4 = field(4)? << 48 | field(12)?;
        match fields.next() {
            None => Ok(Guid::new(d1 as u32, d2 as u16, d3 as u16, d4.to_be_bytes())),
            Some(_) => Err(NoGuid),
        }
    }
}

#[cfg(test)]
mod tests {
    use super::Guid;

    #[test]
    fn halves() {
        let g = Guid::new(0x0000_0131, 0x0203, 0x0405, [0xC0, 0, 0, 0, 0, 0, 0, 0x46]);
        assert_eq!(g.halves(), (0x0405_0203_0000_0131, 0x4600_0000_0000_00C0));
    }
}
