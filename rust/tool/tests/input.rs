//! Hex of every shape is told from bytes.

mod common;

use common::{file, ran, usual};
use rimonakh_tool::input::from_hex;

/// As a dumping program prints the bytes: an offset, sixteen bytes, their text.
fn dump(bytes: &[u8], line: impl Fn(usize, &[u8], &str) -> String) -> String {
    let seen = |b: &u8| {
        if matches!(b, b' '..=b'~') {
            *b as char
        } else {
            '.'
        }
    };
    let row =
        |(k, row): (usize, &[u8])| line(16 * k, row, &row.iter().map(seen).collect::<String>());
    bytes.chunks(16).enumerate().map(row).collect()
}

fn spaced(row: &[u8]) -> String {
    let pairs: Vec<String> = row.iter().map(|b| format!("{b:02x}")).collect();
    pairs.join(" ")
}

fn xxd(bytes: &[u8]) -> String {
    dump(bytes, |at, row, text| {
        let words: Vec<String> = row.chunks(2).map(|w| spaced(w).replace(' ', "")).collect();
        format!("{at:08x}: {:<39}  {text}\n", words.join(" "))
    })
}

fn hexdump(bytes: &[u8]) -> String {
    let rows = dump(bytes, |at, row, text| {
        let (left, right) = row.split_at(row.len().min(8));
        format!(
            "{at:08x}  {:<23}  {:<23}  |{text}|\n",
            spaced(left),
            spaced(right)
        )
    });
    format!("{rows}{:08x}\n", bytes.len())
}

fn wireshark(bytes: &[u8]) -> String {
    dump(bytes, |at, row, text| {
        format!("{at:04x}   {:<47}   {text}\n", spaced(row))
    })
}

/// Each shape of the bytes, by its name.
fn shapes(bytes: &[u8]) -> Vec<(&'static str, String)> {
    let together = spaced(bytes).replace(' ', "");
    let folded: Vec<&str> = together
        .as_bytes()
        .chunks(60)
        .map(|c| std::str::from_utf8(c).unwrap())
        .collect();
    let escaped: String = bytes.iter().map(|b| format!("\\x{b:02x}")).collect();
    vec![
        ("plain", together.clone()),
        ("capitals", together.to_uppercase()),
        ("folded, as xxd -p", folded.join("\n")),
        ("spaces", spaced(bytes)),
        ("colons", spaced(bytes).replace(' ', ":")),
        ("commas", spaced(bytes).replace(' ', ", ")),
        ("0x", format!("0x{}", spaced(bytes).replace(' ', ", 0x"))),
        ("0x in front", format!("0x{together}")),
        ("ends of lines of DOS", xxd(bytes).replace('\n', "\r\n")),
        ("xxd", xxd(bytes)),
        ("hexdump -C", hexdump(bytes)),
        ("Wireshark", wireshark(bytes)),
        (
            "Wireshark without text",
            dump(bytes, |at, row, _| format!("{at:04x}   {}\n", spaced(row))),
        ),
        ("Wireshark, escaped", format!("\"{escaped}\"")),
    ]
}

#[test]
fn every_shape() {
    let texts = [
        "ab",
        "3333",
        "41 42 43",
        "  two",
        "two  ",
        "a  b",
        "|a|",
        "0x41: 4142  AB",
        "ends with  61",
    ];
    let texts = texts.iter().map(|t| t.as_bytes().to_vec());
    let long = texts
        .clone()
        .map(|t| [&[b' '; 16], &t[..], &[b'a'; 20]].concat());
    let stored = [file("crates/objref/stdin"), usual().snapshot().unwrap()];
    for bytes in texts.chain(long).chain(stored) {
        for (name, text) in shapes(&bytes) {
            assert_eq!(from_hex(&text).as_ref(), Ok(&bytes), "{name}: {text}");
        }
    }
}

#[test]
fn repeated_lines() {
    let bytes = [&[1; 16][..], &[0; 64], &[2; 5]].concat();
    let text = hexdump(&bytes);
    let rows: Vec<&str> = text.lines().collect();
    let squeezed = [rows[0], rows[1], "*", rows[5], rows[6]].join("\n");
    assert_eq!(from_hex(&squeezed).as_ref(), Ok(&bytes));
    let ended = [rows[0], rows[1], "*", "00000050"].join("\n");
    assert_eq!(from_hex(&ended).as_deref(), Ok(&bytes[..80]));
}

#[test]
fn no_hex() {
    let missing = "00000000: 4142\n00000010: 4344";
    for (text, said) in [
        ("4d454f5", "line 1: '4d454f5' is no pairs of digits"),
        ("4d45\nthe end", "line 2: 'the' is no pairs of digits"),
        ("\n \n", "it has no digits"),
        (
            missing,
            "line 2: its offset is 0x10, but 2 bytes stand before it",
        ),
        (
            "00000000: 4142\n*\nffffffffffffff00:",
            "line 3: its offset is 0xffffffffffffff00, but 2 bytes stand before it",
        ),
    ] {
        assert_eq!(from_hex(text), Err(said.to_string()));
    }
}

/// Text is hex and all else is bytes; `--hex` and `--raw` stand against it.
#[test]
fn the_rule() {
    let bytes = file("crates/objref/stdin");
    let shown = ran(&["objref"], &bytes);
    assert_eq!(shown.status, 0);
    for (name, text) in shapes(&bytes) {
        assert_eq!(ran(&["objref"], text.as_bytes()), shown, "{name}");
        assert_eq!(ran(&["objref", "--hex"], text.as_bytes()), shown, "{name}");
        assert_eq!(
            ran(&["objref", "--raw"], text.as_bytes()).status,
            1,
            "{name}"
        );
    }
    assert_eq!(ran(&["objref", "--raw"], &bytes), shown);
    let not = ran(&["objref", "--hex"], &bytes);
    assert_eq!(
        (not.status, &not.err[..]),
        (2, "rimonakh: standard input: not hex: it is not text\n")
    );
    let words = ran(&["objref"], b"refused 14");
    let said = "rimonakh: standard input: text, but not hex: line 1: 'refused' is no pairs of digits (--raw takes it as bytes)\n";
    assert_eq!((words.status, &words.err[..]), (2, said));
}
