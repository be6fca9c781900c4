//! Whether a table is sound, in one pass for each kind. The judgement leaves rows by identifier, by which the calls go.

use crate::bytes::{judge_list, stated_length};
use crate::table::{
    is_held, members, BYTES, CLOCK, EXPORTER, EXPORTERS, HEARD, ID, INTERFACES, IPID_HIGH,
    IPID_LOW, LONGEST_LIST, NEXT_SET, NO_PING, OBJECT, OBJECTS, PINGED, SETS, TIMEOUT,
    UNKNOWN_HIGH, UNKNOWN_LOW, WORDS,
};
use crate::Guid;

/// Rows by a hash of their identifier, in N places (a power of two, at least twice as many as rows): row + 1, or 0. Where a place is
/// taken, the next one counts.
struct Rows<const N: usize>([u16; N]);

impl<const N: usize> Rows<N> {
    fn new() -> Rows<N> {
        Rows([0; N])
    }

    fn place(id: Guid) -> usize {
        let mixed = (id.low ^ id.high.rotate_left(32)).wrapping_mul(0x9E37_79B9_7F4A_7C15);
        (mixed >> (64 - N.trailing_zeros())) as usize
    }

    /// The row of an identifier, which `is` compares, or the free place where it would stand.
    fn find(&self, id: Guid, is: impl Fn(usize) -> bool) -> Result<usize, usize> {
        let mut at = Rows::<N>::place(id);
        loop {
            let row = self.0[at % N] as usize;
            if row == 0 {
                return Err(at % N);
            }
            if is(row - 1) {
                return Ok(row - 1);
            }
            at += 1;
        }
    }

    /// Enters a row; false where its identifier is there.
    fn enter(&mut self, row: usize, id: Guid, is: impl Fn(usize) -> bool) -> bool {
        let free = self.find(id, is);
        if let Err(at) = free {
            self.0[at] = row as u16 + 1;
        }
        free.is_err()
    }
}

/// An identifier of one word.
fn word(low: u64) -> Guid {
    Guid { low, high: 0 }
}

/// Rows by identifier: of interfaces and, after these, remote unknowns by IPID, and of objects by OID.
pub(crate) struct Index {
    ipids: Rows<1024>,
    oids: Rows<512>,
}

impl Index {
    /// The rows of interfaces and objects of a sound table.
    pub(crate) fn of(words: &[u64]) -> Index {
        let mut index = Index {
            ipids: Rows::new(),
            oids: Rows::new(),
        };
        index.again(words);
        for (o, &id) in OBJECTS.column(words, ID).iter().enumerate() {
            index.oids.enter(o, word(id), |_| false);
        }
        index
    }

    /// Enters the last object, whose OID is new.
    pub(crate) fn last_object(&mut self, words: &[u64]) {
        let o = OBJECTS.live(words) - 1;
        let id = words[OBJECTS.at(ID, o)];
        self.oids.enter(o, word(id), |_| false);
    }

    /// Enters the last interface, whose IPID is new.
    pub(crate) fn last_interface(&mut self, words: &[u64]) {
        let i = INTERFACES.live(words) - 1;
        let half = |column| words[INTERFACES.at(column, i)];
        let (low, high) = (half(IPID_LOW), half(IPID_HIGH));
        self.ipids.enter(i, Guid { low, high }, |_| false);
    }

    /// The interface with this IPID.
    pub(crate) fn ipid(&self, words: &[u64], ipid: Guid) -> Option<usize> {
        let n = INTERFACES.places;
        let lows = &words[INTERFACES.at(IPID_LOW, 0)..][..n];
        let highs = &words[INTERFACES.at(IPID_HIGH, 0)..][..n];
        let is = |i: usize| i < n && lows[i] == ipid.low && highs[i] == ipid.high;
        self.ipids.find(ipid, is).ok()
    }

    /// The object with this OID.
    pub(crate) fn oid(&self, words: &[u64], oid: u64) -> Option<usize> {
        let oids = &words[OBJECTS.at(ID, 0)..][..OBJECTS.places];
        self.oids.find(word(oid), |o| oids[o] == oid).ok()
    }

    /// The rows of interfaces anew, after one went.
    pub(crate) fn again(&mut self, words: &[u64]) {
        let lows = INTERFACES.column(words, IPID_LOW);
        let highs = INTERFACES.column(words, IPID_HIGH);
        self.ipids = Rows::new();
        for (i, (&low, &high)) in lows.iter().zip(highs).enumerate() {
            self.ipids.enter(i, Guid { low, high }, |_| false);
        }
    }

    /// Enters an IPID; false where it is nil or there.
    fn enter_ipid(&mut self, words: &[u64; WORDS], row: usize, ipid: Guid) -> bool {
        let n = INTERFACES.places;
        let is = |row: usize| {
            let (low, high) = match row.checked_sub(n) {
                None => (INTERFACES.at(IPID_LOW, row), INTERFACES.at(IPID_HIGH, row)),
                Some(x) => (EXPORTERS.at(UNKNOWN_LOW, x), EXPORTERS.at(UNKNOWN_HIGH, x)),
            };
            words[low] == ipid.low && words[high] == ipid.high
        };
        ipid != Guid::default() && self.ipids.enter(row, ipid, is)
    }
}

/// The rows of a sound table by identifier, or 1.
pub(crate) fn judged(words: &[u64], store: &[u8]) -> Result<Index, u32> {
    judge(words, store).ok_or(1)
}

fn judge(words: &[u64], store: &[u8]) -> Option<Index> {
    let words: &[u64; WORDS] = words.try_into().ok()?;
    if store.len() != BYTES || words[NEXT_SET] == 0 {
        return None;
    }
    let mut index = Index {
        ipids: Rows::new(),
        oids: Rows::new(),
    };
    let oxids = exporters_kept(words, &mut index)?;
    let kept = objects_kept(words, &oxids, &mut index)
        && interfaces_kept(words, &mut index)
        && sets_kept(words)
        && lists_kept(store, EXPORTERS.live(words));
    kept.then_some(index)
}

/// The rows of exporters by OXID, where these keep their rules.
fn exporters_kept(words: &[u64; WORDS], index: &mut Index) -> Option<Rows<64>> {
    let mut oxids = Rows::new();
    let ids = EXPORTERS.column(words, ID);
    let lows = EXPORTERS.column(words, UNKNOWN_LOW);
    let highs = EXPORTERS.column(words, UNKNOWN_HIGH);
    for (x, &id) in ids.iter().enumerate() {
        let new = oxids.enter(x, word(id), |x| ids[x] == id);
        let (low, high) = (lows[x], highs[x]);
        if id == 0 || !new || !index.enter_ipid(words, INTERFACES.places + x, Guid { low, high }) {
            return None;
        }
    }
    Some(oxids)
}

fn objects_kept(words: &[u64; WORDS], oxids: &Rows<64>, index: &mut Index) -> bool {
    let clock = words[CLOCK];
    let ids = OBJECTS.column(words, ID);
    let exporters = OBJECTS.column(words, EXPORTER);
    let marks = OBJECTS.column(words, NO_PING);
    let heard = OBJECTS.column(words, HEARD);
    let live = EXPORTERS.column(words, ID);
    (0..ids.len()).all(|o| {
        let (id, exporter, t) = (ids[o], exporters[o], heard[o]);
        id != 0
            && index.oids.enter(o, word(id), |o| ids[o] == id)
            && oxids.find(word(exporter), |x| live[x] == exporter).is_ok()
            && t <= clock
            && (marks[o] != 0 || clock - t < TIMEOUT)
    })
}

fn interfaces_kept(words: &[u64; WORDS], index: &mut Index) -> bool {
    let lows = INTERFACES.column(words, IPID_LOW);
    let highs = INTERFACES.column(words, IPID_HIGH);
    let owners = INTERFACES.column(words, OBJECT);
    let mut served = 0u128;
    let kept = (0..owners.len()).all(|i| {
        let Some(o) = index.oid(words, owners[i]) else {
            return false;
        };
        served |= 1 << o;
        let (low, high) = (lows[i], highs[i]);
        index.enter_ipid(words, i, Guid { low, high }) && is_held(words, i)
    });
    kept && served.count_ones() as usize == OBJECTS.live(words)
}

fn sets_kept(words: &[u64; WORDS]) -> bool {
    let (clock, next) = (words[CLOCK], words[NEXT_SET]);
    let free = u128::MAX
        .checked_shl(OBJECTS.live(words) as u32)
        .unwrap_or(0);
    let mut rows = Rows::<128>::new();
    let numbers = SETS.column(words, ID);
    let pinged = SETS.column(words, PINGED);
    (0..numbers.len()).all(|s| {
        let (id, t) = (numbers[s], pinged[s]);
        id != 0
            && id < next
            && rows.enter(s, word(id), |s| numbers[s] == id)
            && t <= clock
            && clock - t < TIMEOUT
            && members(words, s) & free == 0
    })
}

/// Whether the first n lists keep the list rules and their bound.
fn lists_kept(store: &[u8], n: usize) -> bool {
    let mut rest = store;
    (0..n).all(|_| {
        if rest.len() < 4 {
            return false;
        }
        let (list, behind) = rest.split_at(stated_length(rest));
        rest = behind;
        list.len() <= LONGEST_LIST && judge_list(list).is_ok()
    })
}
