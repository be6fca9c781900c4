//! References that come in over several packets: proper and damaged ones, cut anywhere, with buffers of any length, compared with
//! the model; and states that no reader left.

use crate::bytes::plain_fields;
use crate::generate::{damage, reference};
use crate::random::Random;
use crate::shrink::shrink;
use crate::tally::Tally;
use crate::Differs;
use model::bytes::Reference;
use rimonakh::{ffi, Error, FragmentReader};

pub type Answer = Result<(Reference, usize), u32>;

/// The library, over these fragments.
pub fn library(fragments: &[&[u8]], waiting: usize, last: &mut [u8]) -> Answer {
    let mut reader = FragmentReader::new(waiting);
    for fragment in fragments {
        reader.push(fragment);
    }
    let (fields, length) = reader.finish(last).map_err(Error::number)?;
    Ok((plain_fields(fields), length))
}

/// Plain Rust, over these fragments: the length only.
fn plain_length(fragments: &[&[u8]], waiting: usize, last: &mut [u8]) -> Result<usize, u32> {
    let mut state = plain::fragments::Fragments::default();
    let mut waiting = vec![0; waiting];
    for fragment in fragments {
        state.push(&mut waiting, fragment);
    }
    state.finish(&waiting, last).map(|(_, length)| length)
}

/// The bytes in fragments of these sizes, the rest in a last one.
pub fn cut<'a>(mut bytes: &'a [u8], sizes: &[usize]) -> Vec<&'a [u8]> {
    let mut fragments = Vec::new();
    for size in sizes {
        let (front, rest) = bytes.split_at((*size).min(bytes.len()));
        fragments.push(front);
        bytes = rest;
    }
    fragments.push(bytes);
    fragments
}

/// One input: the bytes, where they are cut, the lengths of the buffers.
struct Case {
    bytes: Vec<u8>,
    sizes: Vec<usize>,
    waiting: usize,
    last: usize,
}

impl Case {
    fn new(random: &mut Random) -> Case {
        let oxid = random.word();
        let mut bytes = reference(random, oxid);
        while bytes[4] == 8 && !random.once_in(6) {
            bytes = reference(random, oxid);
        }
        match random.below(10) {
            0..=3 => damage(random, &mut bytes),
            4 => {
                let n = random.below(120);
                bytes.truncate(n);
            }
            _ => {}
        }
        let sizes = match random.below(4) {
            0 => vec![],
            1 => vec![1; bytes.len()],
            2 => (0..random.below(12)).map(|_| random.below(3)).collect(),
            _ => (0..random.below(30)).map(|_| random.below(20)).collect(),
        };
        let tail = [64, 80, 48].map(|start| bytes.len().saturating_sub(start));
        let mut room = || {
            let n = random.pick(&tail);
            random.pick(&[0, n.saturating_sub(1), n, n, n + 1, n + 9, 400, 400])
        };
        let (waiting, last) = (room(), room());
        Case {
            bytes,
            sizes,
            waiting,
            last,
        }
    }

    fn check(&self, bytes: &[u8]) -> Result<Answer, String> {
        let fragments = cut(bytes, &self.sizes);
        let lent: Vec<u8> = (0..self.last).map(|i| !(i as u8)).collect();
        let (mut ours, mut theirs, mut simple) = (lent.clone(), lent.clone(), lent);
        let answered = library(&fragments, self.waiting, &mut ours);
        let demanded = model::fragments::read(&fragments, self.waiting, &mut theirs);
        if answered != demanded {
            return Err(format!("answered {answered:?}, demanded {demanded:?}"));
        }
        if ours != theirs {
            return Err(format!("the final buffer {ours:?}, demanded {theirs:?}"));
        }
        let length = plain_length(&fragments, self.waiting, &mut simple);
        if length != demanded.map(|(_, length)| length) || simple != theirs {
            return Err(format!(
                "plain Rust answered {length:?}, demanded {demanded:?}"
            ));
        }
        Ok(demanded)
    }
}

/// So many references in fragments. A failure prints the shortest failing input that is found.
pub fn compare(seed: u64, inputs: u64) -> Result<Tally, Differs> {
    let mut random = Random::new(seed);
    let mut tally = Tally::default();
    for n in 0..inputs {
        let case = Case::new(&mut random);
        match case.check(&case.bytes) {
            Ok(answer) => tally.count(answer.err().unwrap_or(0)),
            Err(difference) => {
                println!("FAILED: reference in fragments {n} of seed {seed}: {difference}");
                let fewest = shrink(&case.bytes, |fewer| case.check(fewer).is_err());
                println!(
                    "the shortest failing input that was found: {fewest:02x?}, cut into {:?}, waiting {}, final {}",
                    case.sizes, case.waiting, case.last
                );
                return Err(Differs);
            }
        }
        if n % 8 == 0 {
            forged(&mut random, &case)?;
        }
    }
    Ok(tally)
}

/// A state that no reader left: every call ends, and a refusal is zeros and leaves the final buffer.
fn forged(random: &mut Random, case: &Case) -> Result<(), Differs> {
    let mut head = [0; 84];
    let n = case.bytes.len().min(84);
    head[..n].copy_from_slice(&case.bytes[..n]);
    let mut state = ffi::Fragments {
        head,
        kept: random.pick(&[0, 1, case.waiting, case.waiting + 1, usize::MAX]),
        seen: random.pick(&[0, 23, 24, 64, 84, 300, 131_155, 131_156, u32::MAX]),
        low: random.word() as u8,
        mode: random.pick(&[0, 1, 2, 3, 3, 4, 5, 255]),
        over: random.once_in(4),
    };
    let mut waiting = random.bytes(case.waiting);
    for f in cut(&case.bytes, &case.sizes) {
        let (at, len) = (waiting.as_mut_ptr(), waiting.len());
        // SAFETY: each pointer and length are of one slice, and the slices do not overlap.
        state = unsafe { ffi::rimonakh_fragments_push(state, at, len, f.as_ptr(), f.len()) };
    }
    // a waiting buffer of another length
    waiting.truncate(random.pick(&[0, case.waiting / 2, case.waiting]));
    let lent = random.bytes(case.last);
    let mut last = lent.clone();
    let (at, len) = (waiting.as_ptr(), waiting.len());
    // SAFETY: each pointer and length are of one slice, and the slices do not overlap.
    let r =
        unsafe { ffi::rimonakh_fragments_finish(state, at, len, last.as_mut_ptr(), last.len()) };
    let right = if r.answer == 0 {
        r.length <= len.min(lent.len())
            && last[..r.length] == waiting[..r.length]
            && last[r.length..] == lent[r.length..]
    } else {
        last == lent && r.length == 0 && r.reference == rimonakh::Reference::default()
    };
    if right {
        return Ok(());
    }
    println!("FAILED: a forged state is answered {}", r.answer);
    Err(Differs)
}
