//! Two adds or releases on different IPIDs from one table, in either order (request 13).

use crate::call::{Call, Reply};
use crate::decode;
use crate::subject::Subject;

/// The replies to the calls, one after the other, and the live entries that they leave.
fn served<S: Subject>(
    words: &[u64],
    store: &[u8],
    calls: [&Call; 2],
) -> ([Reply; 2], model::entries::Entries) {
    let (mut words, mut store) = (words.to_vec(), store.to_vec());
    let replies = calls.map(|call| S::perform(&mut words, &mut store, call));
    (replies, decode::entries(&words, &store))
}

/// A value of a release; 0 of an add.
fn value(reply: &Reply, k: usize) -> u64 {
    reply.values.get(k).copied().unwrap_or(0)
}

/// Whether the note that an object went moved from one call to the other; or how the two orders differ.
pub fn either<S: Subject>(words: &[u64], store: &[u8], a: &Call, b: &Call) -> Result<bool, String> {
    let ([a_first, b_second], left) = served::<S>(words, store, [a, b]);
    let ([b_first, a_second], right) = served::<S>(words, store, [b, a]);
    let said = |r: &Reply| (r.number, [0, 1, 2].map(|k| value(r, k)));
    let same = said(&a_first) == said(&a_second) && said(&b_first) == said(&b_second);
    let [a_early, b_late, b_early, a_late] =
        [&a_first, &b_second, &b_first, &a_second].map(|r| value(r, 3));
    let moved = (a_early, b_late, b_early, a_late) == (0, 1, 0, 1);
    let stayed = a_early == a_late && b_early == b_late;
    if !same || left != right || !(moved || stayed) {
        return Err(format!(
            "{a:?} and {b:?}: {a_first:?} {b_second:?}, in the other order {b_first:?} {a_second:?}"
        ));
    }
    Ok(moved)
}
