//! Runs of calls on one table, compared with the model: every answer, and after every call the live entries.

use crate::call::{buffer, Call, Reply, Step};
use crate::decode;
use crate::generate::Pools;
use crate::model_side::Side;
use crate::orders::either;
use crate::random::Random;
use crate::shrink::shrink;
use crate::subject::Subject;
use crate::tally::Tally;
use crate::Differs;
use model::entries::{Entries, Interface, EXPORTERS, OBJECTS, STORE};
use model::snapshot;
use model::Guid;
use std::marker::PhantomData;
use std::panic::{catch_unwind, AssertUnwindSafe};

/// The words of a table, and the bytes of its store.
pub const LENGTH: usize = 8192;

/// An array and a store, each with one place more than a table has, for lengths that are too large.
#[derive(Clone, PartialEq)]
pub struct Memory {
    words: Vec<u64>,
    store: Vec<u8>,
}

impl Memory {
    /// Memory that holds anything.
    pub fn any(random: &mut Random) -> Memory {
        Memory {
            words: (0..=LENGTH).map(|_| random.word()).collect(),
            store: random.bytes(LENGTH + 1),
        }
    }

    /// All words and bytes, one more than a table has.
    pub fn all(&mut self) -> (&mut [u64], &mut [u8]) {
        (&mut self.words, &mut self.store)
    }

    /// A table's words and bytes.
    pub fn lent(&mut self) -> (&mut [u64], &mut [u8]) {
        (&mut self.words[..LENGTH], &mut self.store[..LENGTH])
    }

    /// A call that is lent a table's words and bytes.
    fn perform<S: Subject>(&mut self, call: &Call) -> Reply {
        let (words, store) = self.lent();
        S::perform(words, store, call)
    }
}

/// Both sides of a run.
struct Pair<S> {
    memory: Memory,
    before: Memory,
    side: Side,
    tally: Tally,
    subject: PhantomData<S>,
}

impl<S: Subject> Pair<S> {
    /// Both sides reset, the subject on memory that holds anything.
    fn new(noise: u64) -> Result<Pair<S>, String> {
        let memory = Memory::any(&mut Random::new(noise));
        let mut pair = Pair {
            before: memory.clone(),
            memory,
            side: Side {
                entries: Entries::empty(0),
                sound: false,
            },
            tally: Tally::default(),
            subject: PhantomData,
        };
        pair.call(&Call::Reset { time: 1000 }, LENGTH, LENGTH)?;
        Ok(pair)
    }

    fn words(&self) -> &[u64] {
        &self.memory.words[..LENGTH]
    }

    fn store(&self) -> &[u8] {
        &self.memory.store[..LENGTH]
    }

    /// Performs a step on both sides; says how they differ.
    fn step(&mut self, step: &Step) -> Result<(), String> {
        match *step {
            Step::Call(ref call) => return self.call(call, LENGTH, LENGTH),
            Step::Lent {
                words,
                store,
                ref call,
            } => return self.call(call, words, store),
            Step::PokeWord { at, value } => self.memory.words[at] = value,
            Step::PokeByte { at, value } => self.memory.store[at] = value,
        }
        let (words, store) = self.memory.lent();
        self.side.decode(words, store);
        Ok(())
    }

    /// A call that is lent so many words and bytes.
    fn call(&mut self, call: &Call, words: usize, store: usize) -> Result<(), String> {
        self.before.words.copy_from_slice(&self.memory.words);
        self.before.store.copy_from_slice(&self.memory.store);
        let lent_words = &mut self.memory.words[..words];
        let lent_store = &mut self.memory.store[..store];
        let answered = catch_unwind(AssertUnwindSafe(|| {
            S::perform(lent_words, lent_store, call)
        }));
        let answer = answered.map_err(|_| "it panicked".to_string())?;
        let demanded = self.demanded(call, (words, store) == (LENGTH, LENGTH));
        if answer != demanded {
            return Err(format!("answered {answer:?}\n  demanded {demanded:?}"));
        }
        if answer.number == 0 {
            return self.left(call, &answer);
        }
        match self.memory == self.before {
            true => Ok(()),
            false => Err(format!(
                "refused by {} and changed the memory",
                answer.number
            )),
        }
    }

    /// What the model demands of a call that is lent a whole table or not.
    fn demanded(&mut self, call: &Call, whole: bool) -> Reply {
        let last = self.last_sequence(call);
        let objects = self.side.entries.objects.len();
        let loads = self.loads(call);
        let demanded = match whole {
            true => self.side.perform(call),
            false => call.refused(1),
        };
        self.tally.count(demanded.number);
        if let Some(event) = self.event(call, &demanded, last, objects) {
            self.tally.event(event);
        }
        if let Some(event) = loads {
            self.tally.event(match demanded.number {
                0 => event,
                _ => "snapshots refused",
            });
        }
        demanded
    }

    /// What an accepted call has left is what the model has.
    fn left(&mut self, call: &Call, answer: &Reply) -> Result<(), String> {
        if self.cut_list(call, &answer.bytes)? {
            self.tally.event("lists cut and done one by one");
        }
        let left = decode::entries(self.words(), self.store());
        if !decode::same(&left, &self.side.entries) {
            return Err(format!("left {left:?}\n  demanded {:?}", self.side.entries));
        }
        match self.side.entries.sound() {
            true => Ok(()),
            false => Err("the model is not sound".to_string()),
        }
    }
}

impl<S: Subject> Pair<S> {
    /// The same accepted list from the memory before it, cut between items and done in turn, and item by item by the single
    /// calls: results and live entries are the same. Whether it was done: the longest lists, one item many times, are left out.
    fn cut_list(&self, list: &Call, results: &[u8]) -> Result<bool, String> {
        let Some((way, client, items)) = list.listed().filter(|(.., i)| i.len() <= 2400) else {
            return Ok(false);
        };
        let part = |items: &[u8]| Call::count_list(way, client, items.len() / 24, items.to_vec());
        let single = |item: &[u8]| {
            let count = |at: usize| u32::from_le_bytes(item[at..at + 4].try_into().unwrap());
            let ipid = item[..16].try_into().unwrap();
            Call::count(way, client, ipid, count(16), count(20))
        };
        let (n, left) = (
            items.len() / 24,
            decode::entries(self.words(), self.store()),
        );
        let cut = 24 * (items.iter().map(|b| *b as usize).sum::<usize>() % (n + 1));
        let parts = vec![part(&items[..cut]), part(&items[cut..])];
        let singles: Vec<Call> = items.chunks(24).map(single).collect();
        for (calls, what) in [(parts, "cut"), (singles, "one by one")] {
            let mut memory = self.before.clone();
            let mut joined = Vec::new();
            for call in &calls {
                let reply = memory.perform::<S>(call);
                match call.listed() {
                    Some(_) => joined.extend(reply.bytes),
                    None => joined.push(reply.number as u8),
                }
            }
            let (words, store) = memory.lent();
            if joined != results[..n] || !decode::same(&decode::entries(words, store), &left) {
                return Err(format!(
                    "{what}: results {joined:?} for {:?}",
                    &results[..n]
                ));
            }
        }
        Ok(true)
    }
}

impl<S: Subject> Pair<S> {
    /// Two calls from the memory as it is, in either order.
    fn either_order(&mut self, pools: &Pools, random: &mut Random) -> Result<(), Differs> {
        let Some((a, b)) = pools.pair(random, &self.side.entries) else {
            return Ok(());
        };
        let moved = either::<S>(self.words(), self.store(), &a, &b).map_err(|difference| {
            println!("FAILED: {} in another order: {difference}", S::NAME);
            Differs
        })?;
        self.tally.event("pairs in either order");
        if moved {
            self.tally.event("notes moved to the later call");
        }
        Ok(())
    }
}

impl<S: Subject> Pair<S> {
    /// The box is swapped: its snapshot is loaded into another memory, which held anything. Then both serve the same calls, answer
    /// the same, and have the same snapshot.
    fn swap_box(&mut self, pools: &Pools, random: &mut Random) -> Result<(), String> {
        const ROOM: usize = 65_000;
        let snapshot_of = |memory: &mut Memory| {
            let r = memory.perform::<S>(&Call::WriteSnapshot { room: ROOM });
            let length = r.values[0] as usize;
            let kept = r.number == 0 && r.bytes[length..] == buffer(ROOM)[length..];
            kept.then(|| r.bytes[..length].to_vec())
        };
        let mut other = Memory::any(random);
        let written = snapshot_of(&mut self.memory).ok_or("no snapshot")?;
        if written != snapshot::write(&self.side.entries) {
            return Err(format!("another snapshot: {written:?}"));
        }
        for _ in 0..6 {
            let bytes = pools.snapshot(random, &self.side.entries);
            let demanded = snapshot::read(&bytes).err().unwrap_or(0);
            let before = other.clone();
            let load = Call::LoadSnapshot {
                snapshot: bytes.clone(),
            };
            let number = other.perform::<S>(&load).number;
            let left = match number {
                0 => snapshot_of(&mut other).as_ref() == Some(&bytes),
                _ => other == before,
            };
            if number != demanded || !left {
                return Err(format!("{number} for {demanded}, of {bytes:?}"));
            }
            self.tally.count(number);
        }
        let load = other.perform::<S>(&Call::LoadSnapshot { snapshot: written });
        if load.number != 0 {
            return Err(format!("the load is refused by {}", load.number));
        }
        for _ in 0..10 {
            let call = pools.plain_call(random, &self.side.entries);
            let (here, there) = (
                self.memory.clone().perform::<S>(&call),
                other.perform::<S>(&call),
            );
            if here != there {
                return Err(format!("{call:?}: {here:?}, and in the other {there:?}"));
            }
            self.call(&call, LENGTH, LENGTH)?;
        }
        if snapshot_of(&mut other) != snapshot_of(&mut self.memory) {
            return Err("the boxes have other snapshots".to_string());
        }
        Ok(())
    }
}

impl<S> Pair<S> {
    /// What an accepted load of a snapshot reaches.
    fn loads(&self, call: &Call) -> Option<&'static str> {
        let Call::LoadSnapshot { snapshot } = call else {
            return None;
        };
        Some(if !self.side.sound {
            "snapshots loaded over an unsound table"
        } else if *snapshot != snapshot::write(&self.side.entries) {
            "snapshots loaded with something changed"
        } else {
            "snapshots loaded"
        })
    }

    /// The sequence number of the set that a complex ping names.
    fn last_sequence(&self, call: &Call) -> Option<u16> {
        let Call::ComplexPing { set, .. } = call else {
            return None;
        };
        let mut sets = self.side.entries.sets.iter();
        sets.find(|s| s.number == *set).map(|s| s.sequence)
    }

    /// Whether the interface is there still, though neither a public reference nor one of the client's is.
    fn kept_by_another(&self, client: u32, ipid: Guid) -> bool {
        let left = |i: &Interface| i.public == 0 && i.private[client as usize] == 0;
        let mut interfaces = self.side.entries.interfaces.iter();
        interfaces.any(|i| i.ipid == ipid && left(i))
    }

    /// What a call on so many objects reached besides its answer number.
    fn event(
        &self,
        call: &Call,
        reply: &Reply,
        last: Option<u16>,
        objects: usize,
    ) -> Option<&'static str> {
        let event = match (call, reply.number) {
            (Call::EnterExporter { .. }, 9) if self.side.entries.exporters.len() == EXPORTERS => {
                "exporters full"
            }
            (Call::EnterExporter { .. }, 9) => "store full",
            (Call::EnterExporter { .. }, 0) if self.side.entries.list_bytes() == STORE => {
                "store filled to the last byte"
            }
            (Call::EnterObject { .. }, 9) => "objects or interfaces full at an object",
            (Call::EnterInterface { .. }, 9) => "interfaces full",
            (Call::ComplexPing { .. }, 9) => "sets full",
            (Call::Clock { .. }, 0) if reply.values[1] != 0 => "objects expired",
            (Call::Clock { .. }, 0) if reply.values[3] != 0 => "sets expired",
            (Call::Release { .. }, 0) if reply.values[3] != 0 => "objects released",
            (Call::Release { client, ipid, .. }, 0) if self.kept_by_another(*client, *ipid) => {
                "interfaces kept by another client"
            }
            (Call::DropClient { .. }, 0) if self.side.entries.objects.len() < objects => {
                "objects dropped with a client"
            }
            (Call::RemoveExporter { .. }, 0) => "exporters removed",
            (Call::ComplexPing { sequence, .. }, 0) if last.is_some_and(|n| *sequence < n) => {
                "sequence numbers wrapped"
            }
            (Call::Members { .. }, 0) if self.side.entries.objects.len() == OBJECTS => {
                "members of a full table"
            }
            (Call::NextStop { .. }, 0) if reply.values[0] != 0 => "next stops in the store",
            (Call::NextStop { .. }, 0) => "next stops in the reference",
            (Call::ResolveFiltered { oxid, .. }, 0) => {
                let mut exporters = self.side.entries.exporters.iter();
                let list = exporters.find(|x| x.oxid == *oxid).map(|x| x.list.len());
                if list == Some(reply.values[0] as usize) {
                    "lists resolved whole by protocols"
                } else {
                    "bindings left out by protocols"
                }
            }
            (Call::Census {}, 1) if !self.side.sound => "tables unsound",
            _ => return None,
        };
        Some(event)
    }
}

/// Performs the steps from a reset; how the sides differ, if they do.
fn replay<S: Subject>(noise: u64, steps: &[Step]) -> Option<String> {
    let mut pair = match Pair::<S>::new(noise) {
        Ok(pair) => pair,
        Err(difference) => return Some(difference),
    };
    steps.iter().find_map(|step| pair.step(step).err())
}

/// One random run of so many steps. A failure prints the shortest failing run that is found.
fn run<S: Subject>(seed: u64, length: usize, pokes: bool) -> Result<Tally, Differs> {
    let mut random = Random::new(seed);
    let pools = Pools::new(&mut random, pokes);
    let mut steps: Vec<Step> = Vec::new();
    let mut saved = snapshot::write(&Entries::empty(1000));
    let mut pair = match Pair::<S>::new(seed) {
        Ok(pair) => pair,
        Err(difference) => return Err(report::<S>(seed, &steps, &difference)),
    };
    while steps.len() < length {
        let mut next = pools.steps(&mut random, &pair.side.entries, pair.words(), pair.store());
        if !pair.side.sound && random.once_in(3) {
            next = vec![Step::Call(Call::Reset { time: 1000 })];
            if random.once_in(2) {
                let snapshot = saved.clone();
                next = vec![Step::Call(Call::LoadSnapshot { snapshot })];
            }
        }
        for step in next {
            let done = pair.step(&step);
            steps.push(step);
            if let Err(difference) = done {
                return Err(report::<S>(seed, &steps, &difference));
            }
        }
        if pair.side.sound && random.once_in(12) {
            pair.either_order(&pools, &mut random)?;
        }
        if pair.side.sound && random.once_in(40) {
            saved = snapshot::write(&pair.side.entries);
        }
        if pair.side.sound && !pools.pokes && random.once_in(60) {
            pair.swap_box(&pools, &mut random).map_err(|difference| {
                println!("FAILED: {} with its box swapped: {difference}", S::NAME);
                Differs
            })?;
            pair.tally.event("boxes swapped");
        }
    }
    Ok(pair.tally)
}

fn report<S: Subject>(seed: u64, steps: &[Step], difference: &str) -> Differs {
    println!(
        "FAILED: {} and the model differ in the run of seed {seed}, at step {}",
        S::NAME,
        steps.len()
    );
    let fewest = shrink(steps, |fewer| replay::<S>(seed, fewer).is_some());
    println!("the shortest failing run that was found, after a reset at time 1000:");
    for step in &fewest {
        println!("  {step:?}");
    }
    println!(
        "{}",
        replay::<S>(seed, &fewest).as_deref().unwrap_or(difference)
    );
    Differs
}

/// Random runs until so many answers are compared.
pub fn compare<S: Subject>(seed: u64, answers: u64, pokes: bool) -> Result<Tally, Differs> {
    let mut seeds = Random::new(seed);
    let mut tally = Tally::default();
    while tally.total() < answers {
        let length = seeds.pick(&[200, 1000, 4000]);
        tally.join(&run::<S>(seeds.word(), length, pokes)?);
    }
    Ok(tally)
}
