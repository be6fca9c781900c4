//! Reading a recording takes no memory but the stack.

use rimonakh::recording::Records;
use std::alloc::{GlobalAlloc, Layout, System};
use std::cell::Cell;

thread_local! {
    static TAKEN: Cell<u64> = const { Cell::new(0) };
}

/// The system's memory, with how often this thread took some.
struct Counting;

// SAFETY: all is handed on to the system's.
unsafe impl GlobalAlloc for Counting {
    unsafe fn alloc(&self, layout: Layout) -> *mut u8 {
        TAKEN.set(TAKEN.get() + 1);
        System.alloc(layout)
    }

    unsafe fn dealloc(&self, memory: *mut u8, layout: Layout) {
        System.dealloc(memory, layout);
    }
}

#[global_allocator]
static MEMORY: Counting = Counting;

const DAY: &[u8] = include_bytes!("../../../examples/day.recording");

#[test]
fn read_and_refused() {
    let mut changed = DAY.to_vec();
    let before = TAKEN.get();
    let records = Records::read(DAY).unwrap();
    let shown: usize = records.map(|record| record.shown.len()).sum();
    for at in 0..DAY.len() {
        changed[at] ^= 0x80;
        let read = Records::read(&changed).map_or(0, |records| records.len());
        changed[at] ^= 0x80;
        let cut = Records::read(&DAY[..at]).is_err();
        assert!(read <= 40 && cut);
    }
    let taken = TAKEN.get() - before;
    assert_eq!((shown > 0, taken), (true, 0));
    assert!(TAKEN.get() > 0); // those of the test itself are counted
}
