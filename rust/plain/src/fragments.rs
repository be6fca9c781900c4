//! References that come in over several packets: standard, handler and custom.

use crate::bytes::{fixed_fields, fixed_size, u16_at, u32_at, Reference, SIGNATURE};
use crate::words::zero_word;

/// What stands before the list or object data of every form, and N and S of a list.
const HEAD: usize = 84;

/// Where the walk over a part's words stands.
#[derive(Clone, Copy, PartialEq, Eq)]
enum Walk {
    /// A tower or service word is due.
    Due,
    /// The word after a service word is due.
    Free,
    Text,
    Closed,
    Broken,
}

/// The state between two fragments.
#[derive(Clone)]
pub struct Fragments {
    head: [u8; HEAD],
    seen: usize,
    kept: usize,
    over: bool,
    /// The words of a list that have come, and the first byte of the next one.
    words: usize,
    low: u8,
    walk: Walk,
}

impl Default for Fragments {
    fn default() -> Fragments {
        Fragments {
            head: [0; HEAD],
            seen: 0,
            kept: 0,
            over: false,
            words: 0,
            low: 0,
            walk: Walk::Due,
        }
    }
}

impl Fragments {
    /// Flags and size of the fixed fields, once the header has come and is accepted.
    fn form(&self) -> Option<(u32, usize)> {
        if self.seen < 24 || u32_at(&self.head, 0) != SIGNATURE {
            return None;
        }
        let flags = u32_at(&self.head, 4);
        // an extended reference is not read in fragments
        let start = fixed_size(flags).ok().filter(|_| flags != 8)?;
        Some((flags, start))
    }

    pub fn push(&mut self, waiting: &mut [u8], mut fragment: &[u8]) {
        while !fragment.is_empty() {
            // up to the end of the header, of the fixed fields, of N and S; then all
            let stop = match self.form() {
                None if self.seen < 24 => 24,
                None => usize::MAX,
                Some((_, start)) if self.seen < start => start,
                Some((_, start)) if self.seen < start + 4 => start + 4,
                Some(_) => usize::MAX,
            };
            let n = fragment.len().min(stop - self.seen);
            let (now, later) = fragment.split_at(n);
            if self.seen < HEAD {
                let m = n.min(HEAD - self.seen);
                self.head[self.seen..self.seen + m].copy_from_slice(&now[..m]);
            }
            if let Some((flags, start)) = self.form() {
                if self.seen >= start {
                    self.keep(waiting, now);
                    if flags != 4 && self.seen >= start + 4 {
                        self.walk(start, self.seen - start - 4, now);
                    }
                }
            }
            self.seen = self.seen.saturating_add(n);
            fragment = later;
        }
    }

    /// Bytes of the list or object data.
    fn keep(&mut self, waiting: &mut [u8], now: &[u8]) {
        let n = now.len().min(waiting.len() - self.kept);
        waiting[self.kept..self.kept + n].copy_from_slice(&now[..n]);
        self.kept += n;
        self.over |= n < now.len();
    }

    /// Bytes of the list's words, from byte `at` of them.
    fn walk(&mut self, start: usize, at: usize, now: &[u8]) {
        let count = u16_at(&self.head, start) as usize;
        let split = u16_at(&self.head, start + 2) as usize;
        if self.words == count {
            return;
        }
        let mut rest = now;
        if at % 2 == 1 {
            self.word(split, u16::from_le_bytes([self.low, now[0]]));
            rest = &now[1..];
        }
        let end = rest.len().min(2 * (count - self.words)) & !1;
        let mut words = self.pass_text(split, count, &rest[..end]);
        while let Some((pair, later)) = words.split_first_chunk::<2>() {
            self.word(split, u16::from_le_bytes(*pair));
            words = self.pass_text(split, count, later);
        }
        self.low = now[now.len() - 1];
    }

    /// Passes the words of a text up to a zero word, its part's end or the fragment's; answers the words after them.
    fn pass_text<'a>(&mut self, split: usize, count: usize, words: &'a [u8]) -> &'a [u8] {
        if self.walk != Walk::Text || self.words == split {
            return words;
        }
        let end = if self.words < split { split } else { count };
        let n = words.len().min(2 * (end - self.words));
        let text = zero_word(&words[..n]).unwrap_or(n / 2);
        self.words += text;
        &words[2 * text..]
    }

    fn word(&mut self, split: usize, word: u16) {
        if self.words == split {
            self.walk = match self.walk {
                Walk::Closed => Walk::Due,
                _ => Walk::Broken,
            };
        }
        let strings = self.words < split;
        self.walk = match self.walk {
            Walk::Due if word == 0 => Walk::Closed,
            Walk::Due if strings => Walk::Text,
            Walk::Due => Walk::Free,
            Walk::Free => Walk::Text,
            Walk::Text if word == 0 => Walk::Due,
            Walk::Text => Walk::Text,
            Walk::Closed | Walk::Broken => Walk::Broken,
        };
        self.words += 1;
    }

    fn judge_list(&self, start: usize) -> Result<(), u32> {
        let t = self.seen - start;
        if t < 4 {
            return Err(13);
        }
        let count = u16_at(&self.head, start) as usize;
        let split = u16_at(&self.head, start + 2) as usize;
        if t < 4 + 2 * count {
            return Err(13);
        }
        let bare = count == 0 && split == 0;
        let parted = split < count && self.walk == Walk::Closed;
        if !(bare || parted) || 4 + 2 * count < t {
            return Err(14);
        }
        Ok(())
    }

    /// Declares the end: the fields, and the length of the list or object data, which goes to the front of `last`.
    pub fn finish(&self, waiting: &[u8], last: &mut [u8]) -> Result<(Reference, usize), u32> {
        if self.seen < 24 {
            return Err(13);
        }
        let (flags, start) = self.form().ok_or(14u32)?;
        if self.seen < start {
            return Err(13);
        }
        if flags != 4 {
            self.judge_list(start)?;
        }
        let r = fixed_fields(&self.head, flags);
        if flags != 4 && r.names_nil() {
            return Err(22);
        }
        if self.over || last.len() < self.kept {
            return Err(15);
        }
        last[..self.kept].copy_from_slice(&waiting[..self.kept]);
        Ok((r, self.kept))
    }
}
