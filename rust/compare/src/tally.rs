//! How often each answer number occurred, and what else a comparison has to reach.

use std::collections::BTreeMap;

#[derive(Clone, Default)]
pub struct Tally {
    numbers: [u64; 25],
    events: BTreeMap<&'static str, u64>,
}

/// The numbers of documents 01 and 02 that are given; 17 no longer is.
const NUMBERS: [u32; 24] = [
    0, 1, 2, 3, 4, 5, 6, 7, 8, 9, 10, 11, 12, 13, 14, 15, 16, 18, 19, 20, 21, 22, 23, 24,
];

/// What runs of calls have to reach.
const EVENTS: [&str; 30] = [
    "exporters full",
    "store full",
    "store filled to the last byte",
    "objects or interfaces full at an object",
    "interfaces full",
    "sets full",
    "objects expired",
    "sets expired",
    "objects released",
    "interfaces kept by another client",
    "objects dropped with a client",
    "lists cut and done one by one",
    "lists resolved whole by protocols",
    "bindings left out by protocols",
    "pairs in either order",
    "notes moved to the later call",
    "exporters removed",
    "sequence numbers wrapped",
    "members of a full table",
    "next stops in the store",
    "next stops in the reference",
    "tables unsound",
    "snapshots loaded with something changed",
    "snapshots loaded over an unsound table",
    "snapshots refused",
    "boxes swapped",
    "recordings agree",
    "recordings that took and ran down",
    "recordings differ where changed",
    "recordings differ by a changed byte",
];

impl Tally {
    pub fn count(&mut self, number: u32) {
        self.numbers[number as usize] += 1;
    }

    pub fn event(&mut self, event: &'static str) {
        *self.events.entry(event).or_default() += 1;
    }

    pub fn join(&mut self, other: &Tally) {
        for (a, b) in self.numbers.iter_mut().zip(other.numbers) {
            *a += b;
        }
        for (event, n) in &other.events {
            *self.events.entry(event).or_default() += n;
        }
    }

    pub fn total(&self) -> u64 {
        self.numbers.iter().sum()
    }

    /// The numbers and events that did not occur.
    pub fn missing(&self) -> Vec<String> {
        let numbers = NUMBERS
            .into_iter()
            .filter(|&n| self.numbers[n as usize] == 0);
        let events = EVENTS.into_iter().filter(|e| !self.events.contains_key(e));
        numbers
            .map(|n| n.to_string())
            .chain(events.map(str::to_string))
            .collect()
    }

    pub fn print(&self, title: &str) {
        println!("{title}: {} answers", self.total());
        for n in NUMBERS {
            if self.numbers[n as usize] != 0 {
                println!("  {n:>2}: {}", self.numbers[n as usize]);
            }
        }
        for (event, n) in &self.events {
            println!("  {event}: {n}");
        }
    }
}
