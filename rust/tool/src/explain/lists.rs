//! Binding lists (DUALSTRINGARRAY).

use super::{Walk, Walked};
use crate::show::many;

/// The list at the front of what is left.
pub fn front(walk: &mut Walk) -> Walked<()> {
    let start = walk.place();
    let n = walk.u16("the number N of a binding list's words")?;
    let s = walk.u16("the number S of a binding list's string words")?;
    let first = walk.place();
    let what = format!("a binding list of N = {n} words");
    let words = walk.take(2 * u64::from(n), what)?;
    if n == 0 && s == 0 {
        return Ok(());
    }
    if s == 0 || s >= n {
        let rule = "each part of a binding list has at least its zero word, so that 0 < S < N";
        return walk.fault(start, format!("N = {n} and S = {s}: {rule}"));
    }
    let word = |pair: &[u8]| u16::from_le_bytes([pair[0], pair[1]]);
    let words: Vec<u16> = words.chunks_exact(2).map(word).collect();
    let (strings, security) = words.split_at(s.into());
    let middle = first + 2 * strings.len();
    part(strings, 1, "string").or_else(|(k, rule)| walk.fault(first + 2 * k, rule))?;
    part(security, 2, "security").or_else(|(k, rule)| walk.fault(middle + 2 * k, rule))
}

/// One part: bindings of `head` words and a text that a zero word ends, in a row, and then one zero word, which is the last. Answers the
/// word at which that is not so.
fn part(words: &[u16], head: usize, name: &str) -> Result<(), (usize, String)> {
    let mut at = 0;
    for binding in 0.. {
        match words.get(at) {
            None => {
                let rule = format!("the {name} part ends without a zero word of its own");
                return Err((words.len() - 1, rule));
            }
            Some(0) => break,
            Some(_) => (),
        }
        let text = words.get(at + head..).unwrap_or(&[]);
        let Some(length) = text.iter().position(|w| *w == 0) else {
            let rule = format!("no zero word ends {name} binding {binding} within its part");
            return Err((at, rule));
        };
        at += head + length + 1;
    }
    match words.len() - at {
        1 => Ok(()),
        left => {
            let more = many(left - 1, "word");
            let rule = format!("a zero word ends the {name} part, but it has {more} more");
            Err((at, rule))
        }
    }
}
