//! References that come in over several packets.

use crate::error::answered;
use crate::{ffi, Reference, Result};
use alloc::vec;
use alloc::vec::Vec;

/// Reads a standard, handler or custom reference fragment by fragment. It owns the state and the waiting buffer.
///
/// ```
/// use rimonakh::{FragmentReader, Guid, Reference};
///
/// let custom = Reference::custom(Guid([1; 16]), Guid([2; 16]), 0, 3);
/// let mut bytes = [0; 64];
/// let length = custom.write(&[7, 8, 9], &[], &mut bytes)?;
///
/// let mut reader = FragmentReader::new(1024);
/// for fragment in bytes[..length].chunks(5) {
///     reader.push(fragment);
/// }
/// let mut data = [0; 8];
/// assert_eq!(reader.finish(&mut data)?, (custom, 3));
/// assert_eq!(data, [7, 8, 9, 0, 0, 0, 0, 0]);
/// # Ok::<(), rimonakh::Error>(())
/// ```
#[derive(Clone, Debug)]
pub struct FragmentReader {
    state: ffi::Fragments,
    waiting: Vec<u8>,
}

impl FragmentReader {
    /// A reader before its first fragment, with room for a list or object data of so many bytes.
    #[inline]
    pub fn new(room: usize) -> FragmentReader {
        FragmentReader {
            state: archive!(rimonakh_fragments_none()),
            waiting: vec![0; room],
        }
    }

    /// Takes a fragment, which may be of one byte or none. Nothing is refused before the end.
    #[inline]
    pub fn push(&mut self, fragment: &[u8]) {
        self.state = archive!(rimonakh_fragments_push(
            self.state, [mut &mut self.waiting], [fragment]
        ));
    }

    /// Declares the end: the fields, and the length of the list or object data, which is then at the front of `last`; the rest of
    /// `last` is kept.
    #[inline]
    pub fn finish(&self, last: &mut [u8]) -> Result<(Reference, usize)> {
        let r = archive!(rimonakh_fragments_finish(
            self.state, [&self.waiting], [mut last]
        ));
        answered(r.answer, (r.reference, r.length))
    }

    /// Stands before the first fragment of the next reference.
    #[inline]
    pub fn restart(&mut self) {
        self.state = archive!(rimonakh_fragments_none());
    }
}
