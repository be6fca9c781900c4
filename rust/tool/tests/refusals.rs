//! Every refusal has a rule, and none disagrees with the library: every cut and four changes of every byte of the stored references,
//! contexts, nests, snapshots and recordings.

mod common;

use common::{file, guid, usual};
use rimonakh::{list, Context, Error, Reference, Snapshot, Table};
use rimonakh_tool::explain::{recordings, references, snapshots, Walked};

/// The input, its cuts, one byte more, and each byte changed four times.
fn damaged(bytes: &[u8]) -> impl Iterator<Item = Vec<u8>> + '_ {
    let cut = (0..=bytes.len()).map(|n| bytes[..n].to_vec());
    let more = [0, 1].map(|b| [bytes, &[b]].concat());
    let changes: [fn(u8) -> u8; 4] = [|b| b ^ 1, |b| b ^ 0x80, |b| b ^ 0xFF, |_| 0];
    let changed = (0..bytes.len()).flat_map(move |at| {
        changes.map(|change| {
            let mut changed = bytes.to_vec();
            changed[at] = change(changed[at]);
            changed
        })
    });
    cut.chain(more).chain(changed)
}

/// The walk comes to the library's answer; whether it is a refusal.
fn agrees<T>(bytes: &[u8], library: Result<T, Error>, walked: Walked<()>) -> bool {
    let number = library.as_ref().err().map(|e| e.number());
    let found = walked.as_ref().err().map(|fault| fault.number);
    assert_eq!(found, number, "{walked:?}, {bytes:02x?}");
    if let Err(fault) = walked {
        assert!(fault.at <= bytes.len() && !fault.rule.is_empty());
    }
    number.is_some()
}

fn hex(text: &str) -> Vec<u8> {
    let digits: Vec<u32> = text.chars().filter_map(|c| c.to_digit(16)).collect();
    digits
        .chunks_exact(2)
        .map(|d| (16 * d[0] + d[1]) as u8)
        .collect()
}

/// The stored lines with this letter: the numbers in front, so many, and the bytes.
fn lines(name: &str, letter: char, numbers: usize) -> Vec<(Vec<usize>, Vec<u8>)> {
    let text = String::from_utf8(file(&format!("rust/compare/lines/{name}"))).unwrap();
    let lines = text.lines().filter_map(|line| line.strip_prefix(letter));
    let read = |line: &str| {
        let words: Vec<&str> = line.split_whitespace().collect();
        let (front, bytes) = words.split_at(numbers);
        let front = front.iter().map(|n| n.parse().unwrap());
        (front.collect(), hex(&bytes.concat()))
    };
    lines.map(read).collect()
}

/// So many extended references, each the data of the one before, around these bytes; any number, and any bytes. Each of their identifiers
/// is one byte and zeros, so that one change makes it nil.
fn nest(levels: usize, innermost: &[u8]) -> Vec<u8> {
    let around = |inside: Vec<u8>, _| {
        let size = inside.len().next_multiple_of(8);
        let block = [1, 2, 3, 4, 0].map(u64::to_le_bytes).concat();
        let mut bytes = [b"MEOW\x08\0\0\0", &[6; 16][..], &block].concat();
        bytes.extend(b"VYSN\x02\0\x01\0\0\0\0\0\x01\0\0\0VYSN");
        bytes.extend(guid(5).0);
        bytes.extend(
            [inside.len() as u32, size as u32]
                .map(u32::to_le_bytes)
                .concat(),
        );
        bytes.extend(&inside);
        bytes.resize(bytes.len() + size - inside.len(), 0);
        bytes
    };
    (0..levels).fold(innermost.to_vec(), around)
}

/// The stored references.
fn stored() -> Vec<Vec<u8>> {
    let mut found = vec![file("crates/objref/stdin")];
    for (name, letter, numbers) in [
        ("bytes.in", 'O', 0),
        ("extended.in", 'O', 0),
        ("extended.in", 'E', 0),
        ("extended.in", 'Z', 0),
        ("extended.in", 'F', 1),
    ] {
        found.extend(
            lines(name, letter, numbers)
                .into_iter()
                .map(|(_, bytes)| bytes),
        );
    }
    found
}

/// The stored contexts, refused ones too, each in a custom reference.
fn contexts() -> Vec<Vec<u8>> {
    let custom = |(_, context): (_, Vec<u8>)| {
        let front = [
            &b"MEOW\x04\0\0\0"[..],
            &[1; 16],
            &Context::MARSHALER.0,
            &[0; 8],
        ];
        [&front.concat()[..], &context].concat()
    };
    lines("extended.in", 'C', 0)
        .into_iter()
        .map(custom)
        .collect()
}

/// The stored nests, those that are too deep among them.
fn nests() -> Vec<Vec<u8>> {
    let found = lines("extended.in", 'N', 1).into_iter();
    found
        .map(|(levels, inside)| nest(levels[0], &inside))
        .collect()
}

#[test]
fn references_contexts_and_nests() {
    let inputs = [stored(), contexts(), nests()];
    assert_eq!(inputs.each_ref().map(Vec::len), [549, 40, 37]);
    let mut seen = std::collections::BTreeMap::new();
    for bytes in inputs.concat().iter().flat_map(|input| damaged(input)) {
        let answer = Reference::judge(&bytes);
        *seen.entry(answer.err()).or_insert(0) += 1;
        agrees(&bytes, answer, references::reference(&bytes));
    }
    let refusals = [
        Error::Short,
        Error::Layout,
        Error::TooDeep,
        Error::NilIdentifier,
    ];
    let all: Vec<_> = [None].into_iter().chain(refusals.map(Some)).collect();
    assert_eq!(seen.keys().copied().collect::<Vec<_>>(), all);
    assert!(seen.values().all(|n| *n > 500), "{seen:?}");
}

#[test]
fn of_snapshots() {
    let fresh = Table::new(100).snapshot().unwrap();
    let used = usual().snapshot().unwrap();
    for snapshot in [file("crates/snapshot/stdin"), fresh, used] {
        assert!(Snapshot::read(&snapshot).is_ok());
        let mut refused = 0;
        for bytes in damaged(&snapshot) {
            let walked = snapshots::snapshot(&bytes);
            refused += usize::from(agrees(&bytes, Snapshot::read(&bytes), walked));
        }
        assert!(refused > snapshot.len());
    }
}

/// The bytes of a snapshot at clock 0: an exporter for each list, objects of the first, each with so many interfaces, and empty sets.
fn made(lists: &[Vec<u8>], objects: u64, interfaces: u64, sets: u64) -> Vec<u8> {
    let mut out = [&[2, 0][..], &[0; 8], &(sets + 1).to_le_bytes()].concat();
    let count = |n: u64| (n as u16).to_le_bytes();
    out.extend(count(lists.len() as u64));
    for (k, list) in (1..).zip(lists) {
        out.extend([&u64::to_le_bytes(k), &guid(k << 32).0[..]].concat());
        out.extend([&count(list.len() as u64), &list[..]].concat());
    }
    out.extend(count(objects));
    for k in 1..=objects {
        out.extend([k, 1].map(u64::to_le_bytes).concat());
        out.extend([0; 9]);
    }
    out.extend(count(objects * interfaces));
    for k in 0..objects * interfaces {
        let ipid = (u128::from(k) + 1).to_be_bytes(); // rising by its bytes
        out.extend([&ipid[..], &[0; 16], &(1 + k / interfaces).to_le_bytes()].concat());
        out.extend([&[1][..], &[0; 35]].concat());
    }
    out.extend(count(sets));
    for k in 1..=sets {
        out.extend([&k.to_le_bytes()[..], &[0; 12]].concat());
    }
    out
}

/// Both sides of each limit.
#[test]
fn limits_of_snapshots() {
    let list = |bytes: usize| list::of(&[(7, &"a".repeat(bytes / 2 - 6))], &[]).unwrap();
    assert_eq!((list(12).len(), list(2048).len()), (12, 2048));
    for (within, above) in [
        (made(&[list(2048)], 0, 0, 0), made(&[list(2050)], 0, 0, 0)),
        (
            made(&[list(2048), list(2048), list(2048), list(2048)], 0, 0, 0),
            made(
                &[list(2048), list(2048), list(2048), list(2036), list(14)],
                0,
                0,
                0,
            ),
        ),
        (
            made(&vec![list(12); 16], 1, 1, 0),
            made(&vec![list(12); 17], 1, 1, 0),
        ),
        (made(&[list(12)], 128, 2, 0), made(&[list(12)], 129, 1, 0)),
        (made(&[list(12)], 64, 4, 0), made(&[list(12)], 1, 257, 0)),
        (made(&[list(12)], 1, 1, 32), made(&[list(12)], 1, 1, 33)),
    ] {
        let judge = |bytes: &[u8]| agrees(bytes, Snapshot::read(bytes), snapshots::snapshot(bytes));
        assert!(!judge(&within) && judge(&above));
    }
}

#[test]
fn of_recordings() {
    let mut table = Table::new(0);
    for name in [
        "examples/day.recording",
        ".ci/shown.recording",
        "crates/replay/stdin",
    ] {
        for bytes in damaged(&file(name)) {
            agrees(&bytes, table.replay(&bytes), recordings::recording(&bytes));
        }
    }
    let no_ping = |mark: u8| {
        let call = [
            &[1, 0, 0, 0, 0, 0, 0, 0, 54, 0, 0, 0, 0, 0, 0, 0, 3][..],
            &[0; 52],
            &[mark],
        ]
        .concat();
        [&call[..], &[0; 16], &[8], &[0; 7], &[3], &[0; 15]].concat()
    };
    for mark in 0..=3 {
        let (bytes, answer) = (no_ping(mark), table.replay(&no_ping(mark)));
        assert_eq!(
            agrees(&bytes, answer, recordings::recording(&bytes)),
            mark > 1
        );
    }
    let drop_client = [
        &[5, 0, 0, 0, 0, 0, 0, 0, 7, 9, 0, 0, 0][..],
        &[0; 16],
        &[8],
        &[0; 7],
        &[20],
        &[0; 15],
    ];
    let record = drop_client.concat();
    for (count, number) in [(16_384u64, None), (16_385, Some(Error::TooMany))] {
        let bytes = [&count.to_le_bytes()[..], &record.repeat(count as usize)].concat();
        let answer = table.replay(&bytes);
        assert_eq!(answer.err(), number);
        agrees(&bytes, answer, recordings::recording(&bytes));
    }
}
