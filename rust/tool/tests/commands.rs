//! What the commands print, and their exit statuses.

mod common;

use common::{file, full, painted, path, ran, usual};
use rimonakh::{wire_code, Error, Reference};
use std::io::Read;
use std::process::{Command, Stdio};

/// Each of these lines is printed too, as far as it goes.
fn has_lines(printed: &str, stored: &[u8], besides: &[&str]) {
    for line in std::str::from_utf8(stored).unwrap().lines() {
        let differs = besides.iter().any(|b| line.trim_start().starts_with(b));
        let found = printed
            .lines()
            .any(|l| l.trim_start().starts_with(line.trim_start()));
        assert!(differs || found, "{line}");
    }
}

/// The proved program prints the same fields.
#[test]
fn objref() {
    let shown = ran(&["objref"], &file("crates/objref/stdin"));
    assert_eq!((shown.status, &shown.err[..]), (0, ""));
    has_lines(
        &shown.out,
        &file("crates/objref/stdout"),
        &["string binding 1", "string binding 0", "security binding"],
    );
    for line in [
        "binding list: N 57, S 37, 118 bytes",
        "  string 0: tower 7 (ncacn_ip_tcp), address plant-gw01[49668]",
        "  string 1: tower 8 (ncadg_ip_udp), address mühle-02[49671]",
        "  security 0: service 10 (NTLM), second word 0xffff, principal RPCSS/plant-gw01",
    ] {
        assert!(shown.out.lines().any(|l| l == line), "{line}");
    }
}

#[test]
fn snapshot() {
    let shown = ran(&["snapshot"], &file("crates/snapshot/stdin"));
    assert_eq!((shown.status, &shown.err[..]), (0, ""));
    for line in [
        "clock: 1000 seconds",
        "objects: 3 of 128",
        "bytes of binding lists: 54 of 8192",
        "  object 0x0000000000000043: heard 359 s ago, ends soon, in set 4",
        "  object 0x0000000000000042: not pinged, heard 990 s ago, in no set",
        "set 4: sequence 65535, pinged 359 s ago, ends soon, members 2",
    ] {
        assert!(shown.out.lines().any(|l| l == line), "{line}");
    }
}

#[test]
fn replay() {
    let agrees = ran(&["replay"], &file("examples/day.recording"));
    assert_eq!(agrees.status, 0);
    assert_eq!(
        agrees.out,
        "agrees: 40 records\ngranted 17, taken 8, run down 9, held 0\n"
    );
    let differs = ran(&["replay"], &file("crates/replay/stdin"));
    assert_eq!((differs.status, &differs.err[..]), (1, ""));
    has_lines(&differs.out, &file("crates/replay/stdout"), &[]);
    let shown = ran(&["replay"], &file(".ci/shown.recording"));
    assert_eq!(shown.status, 1);
    assert!(shown
        .out
        .contains("call: write snapshot, a buffer of 64 bytes\n"));
    assert!(shown
        .out
        .contains("the shown bytes differ from byte 2 on\n"));
}

/// Of long bytes those around the first difference are shown.
#[test]
fn shown_bytes() {
    let mut day = rimonakh::Recorder::over(usual()).unwrap();
    let mut buffer = vec![0; 9000];
    let length = day.write_snapshot(&mut buffer).unwrap();
    let mut recording = day.recording().to_vec();
    let at = recording.len() - length + 1000;
    recording[at] ^= 1;
    let found = ran(&["replay"], &recording);
    let row = |bytes: &[u8]| {
        format!(
            "    03e0: {}  ",
            bytes
                .iter()
                .map(|b| format!("{b:02x}"))
                .collect::<Vec<_>>()
                .join(" ")
        )
    };
    let rows = [&recording[at - 8..at + 8], &buffer[992..1008]].map(row);
    assert!(
        rows.iter().all(|row| found.out.contains(row)),
        "{}",
        found.out
    );
    assert!(found.out.contains("    ... 976 bytes before\n    03d0: "));
    assert!(found
        .out
        .contains(&format!("    ... {} bytes more\n", length - 976 - 64)));
    assert!(found
        .out
        .contains("\nthe shown bytes differ from byte 1000 on\n"));
}

/// A recording in which each record in turn has another answer: our answer, which a replay does not tell, is the one that was recorded.
#[test]
fn ours() {
    let day = file("examples/day.recording");
    let mut at = 8;
    for number in 1..=40 {
        let mut section = || {
            let size = u64::from_le_bytes(day[at..at + 8].try_into().unwrap()) as usize;
            at += 8 + size;
            at - size
        };
        let (_, _, _, answer, _) = (section(), section(), section(), section(), section());
        let mut changed = day.clone();
        changed[answer + 7] ^= 0x40;
        let found = ran(&["replay"], &changed);
        assert_eq!(found.status, 1);
        let lines: Vec<&str> = found.out.lines().collect();
        assert_eq!(lines[0], format!("record {number} differs, of 40"));
        let line = |name: &str| lines.iter().find_map(|l| l.strip_prefix(name)).unwrap();
        let (recorded, ours) = (line("recorded: "), line("ours: "));
        let results = |text: &str| text.split_once(',').map(|(_, r)| r.to_string());
        assert_eq!(results(recorded), results(ours));
        let number: u64 = ours.split(',').next().unwrap().parse().unwrap();
        assert!(recorded.starts_with(&(number + (1 << 62)).to_string()));
    }
}

#[test]
fn answers() {
    for number in 0..=30 {
        let asked = ran(&["answer", &number.to_string()], &[]);
        let refusal = match number {
            0 => Ok(()),
            n => match Error::try_from(n) {
                Ok(e) => Err(e),
                Err(_) => {
                    assert_eq!((asked.status, &asked.out[..]), (2, ""));
                    continue;
                }
            },
        };
        let words = refusal.err().map_or("done", Error::words);
        let code = wire_code(&refusal);
        assert_eq!(
            asked.out,
            format!("{number}: {words}; on the wire {code:#010x}\n")
        );
        assert_eq!(asked.status, 0);
    }
}

#[test]
fn refusals_say_why() {
    let cut = ran(&["objref"], &file("crates/objref/stdin")[..71]);
    let said = "\
refused: the bytes end before a field does (13)
  a binding list of N = 57 words: 114 bytes are needed, 3 are left
  at byte 68 (0x44) of 71:
  003c: 8c 9d 0e 1f 39 00 25 00 [07] 00 70 end
";
    assert_eq!((cut.status, &cut.out[..], &cut.err[..]), (1, "", said));
    let more = [&file("crates/snapshot/stdin")[..], &[9]].concat();
    let said = "\
refused: the bytes are not the snapshot of any sound table (23)
  the snapshot ends here, with 1 byte left over
  at byte 567 (0x237) of 568:
  022f: 43 00 00 00 00 00 00 00 [09] end
";
    let more = ran(&["snapshot"], &more);
    assert_eq!((more.status, &more.err[..]), (1, said));
    let none = ran(&["replay"], &[1, 0, 0, 0, 0, 0, 0, 0]);
    assert!(none
        .err
        .contains("  at byte 8 (0x8) of 8:\n  0000: 01 00 00 00 00 00 00 00 [end]\n"));
    let other = ran(&["objref"], &file("examples/day.recording"));
    assert!(other
        .err
        .ends_with("  these bytes are a recording: try rimonakh replay\n"));
}

/// A marshaled pointer: the sizes before the reference, and more bytes behind it.
#[test]
fn find() {
    let reference = file("crates/objref/stdin");
    let size = (reference.len() as u32).to_le_bytes();
    let marshaled = [&size[..], &size, &reference, &[0, 0, 5, 6]].concat();
    let refused = ran(&["objref"], &marshaled);
    assert_eq!(refused.status, 1);
    assert!(refused
        .err
        .ends_with("  a signature MEOW stands at byte 8: try --find\n"));
    let plain = ran(&["objref"], &reference).out;
    let found = ran(&["objref", "--find"], &marshaled);
    assert_eq!(
        (found.status, found.out),
        (0, format!("found at byte 8 (0x8)\n{plain}"))
    );
    let bare = ran(&["objref", "--find"], &marshaled[5..8 + reference.len()]);
    assert_eq!(
        (bare.status, bare.out),
        (0, format!("found at byte 3 (0x3)\n{plain}"))
    );
    let json = ran(&["objref", "--find", "--json"], &marshaled);
    assert!(json
        .out
        .starts_with("{\"found_at\":8,\"form\":\"standard\","));
    let cut = ran(&["objref", "--find"], &marshaled[..80]);
    assert_eq!(cut.status, 1);
    assert!(cut.err.contains("  at byte 68 (0x44) of 72:\n"));
    assert!(cut
        .err
        .ends_with("  the bytes are those from byte 8 of the input on\n"));
    assert_eq!(ran(&["objref", "--find"], &[1; 40]).status, 2);
}

/// What stands behind the values of a JSON list or object and its closing bracket.
fn behind_items(mut rest: &str, close: char) -> Option<&str> {
    loop {
        if close == '}' {
            let name = rest.strip_prefix('"').map(|_| rest)?;
            rest = behind_value(name)?.strip_prefix(':')?;
        }
        rest = behind_value(rest)?;
        match rest.strip_prefix(',') {
            Some(next) => rest = next,
            None => return rest.strip_prefix(close),
        }
    }
}

/// What stands behind one JSON value, if one is in front.
fn behind_value(text: &str) -> Option<&str> {
    match text.chars().next()? {
        '[' => text
            .strip_prefix("[]")
            .or_else(|| behind_items(&text[1..], ']')),
        '{' => text
            .strip_prefix("{}")
            .or_else(|| behind_items(&text[1..], '}')),
        '"' => {
            let mut escaped = false;
            let end = text[1..].find(|c: char| {
                let end = c == '"' && !escaped;
                escaped = c == '\\' && !escaped;
                end || c < ' '
            })?;
            text[1 + end..].strip_prefix('"')
        }
        'n' => text.strip_prefix("null"),
        't' => text.strip_prefix("true"),
        'f' => text.strip_prefix("false"),
        _ => Some(text.trim_start_matches(|c: char| c.is_ascii_digit()))
            .filter(|r| r.len() < text.len()),
    }
}

#[test]
fn json() {
    let snapshots = [
        file("crates/snapshot/stdin"),
        usual().snapshot().unwrap(),
        full().snapshot().unwrap(),
    ];
    let mut cases: Vec<(&str, Vec<u8>)> = snapshots.into_iter().map(|s| ("snapshot", s)).collect();
    cases.push(("objref", file("crates/objref/stdin")));
    cases.push(("replay", file("crates/replay/stdin")));
    cases.push(("replay", file(".ci/shown.recording")));
    for (command, bytes) in cases {
        let whole = ran(&[command, "--json"], &bytes);
        assert_eq!(behind_value(&whole.out), Some("\n"), "{}", whole.out);
        let cut = ran(&[command, "--json"], &bytes[..bytes.len() - 1]);
        assert_eq!((cut.status, &cut.err[..]), (1, ""));
        assert_eq!(behind_value(&cut.out), Some("\n"));
        assert!(cut.out.contains("\"rule\":\""), "{}", cut.out);
    }
    let answer = ran(&["answer", "11", "--json"], &[]);
    assert!(answer
        .out
        .starts_with("{\"answer\":11,\"words\":\"no such live"));
    assert!(answer.out.ends_with(",\"wire_code\":1912}\n"));
}

#[test]
fn wrong_use() {
    for args in [
        &[][..],
        &["frob"],
        &["objref", "--frob"],
        &["objref", "a", "b"],
        &["objref", "--hex", "--raw"],
        &["objref", "--title", "x"],
        &["snapshot", "--find"],
        &["status", "--json"],
        &["answer"],
        &["answer", "x"],
        &["answer", "-1"],
        &["answer", "3", "--hex"],
        &["status", "-o"],
        &["objref", "--json=yes"],
        &["objref", "/no/such/file"],
        &["objref", env!("CARGO_MANIFEST_DIR")],
        &[
            "objref",
            "-o",
            env!("CARGO_MANIFEST_DIR"),
            "crates/objref/stdin",
        ],
    ] {
        let used = ran(args, b"4d45");
        assert_eq!((used.status, &used.out[..]), (2, ""), "{args:?}");
        assert!(
            used.err.starts_with("rimonakh: ") && used.err.lines().count() == 1,
            "{args:?}"
        );
    }
    let empty = ran(&["objref"], &[]);
    assert_eq!(
        (empty.status, &empty.err[..]),
        (2, "rimonakh: standard input: empty\n")
    );
}

/// Colours are put around words, on a terminal only, and never into JSON or a file.
#[test]
fn colours() {
    let plain = |text: &str| {
        let parts = text.split("\x1b[").enumerate();
        let shown = parts.map(|(k, part)| {
            if k == 0 {
                part
            } else {
                part.split_once('m').unwrap().1
            }
        });
        shown.collect::<String>()
    };
    let reference = file("crates/objref/stdin");
    for (command, bytes) in [
        ("objref", reference.clone()),
        ("objref", reference[..90].to_vec()),
        ("snapshot", usual().snapshot().unwrap()),
        ("replay", file("examples/day.recording")),
        ("replay", file("crates/replay/stdin")),
    ] {
        let (shown, bare) = (painted(&[command], &bytes, true), ran(&[command], &bytes));
        assert!(shown.out.contains('\x1b') || shown.err.contains('\x1b'));
        assert!(!bare.out.contains('\x1b') && !bare.err.contains('\x1b'));
        assert_eq!((plain(&shown.out), plain(&shown.err)), (bare.out, bare.err));
        assert!(!painted(&[command, "--json"], &bytes, true)
            .out
            .contains('\x1b'));
    }
}

#[test]
fn help_and_version() {
    let help = ran(&["--help"], &[]);
    assert_eq!((help.status, &help.err[..]), (0, ""));
    for word in [
        "objref", "snapshot", "replay", "status", "answer", "--hex", "--raw", "--find", "--json",
        "--output", "--title",
    ] {
        assert!(help.out.contains(word), "{word}");
    }
    assert!(help.out.lines().all(|l| l.len() <= 80));
    assert_eq!(ran(&["objref", "-h", "x", "y", "z"], &[]), help);
    let version = ran(&["-V"], &[]);
    assert!(version
        .out
        .starts_with(concat!("rimonakh ", env!("CARGO_PKG_VERSION"), ", ")));
}

/// The program itself, as the shell starts it.
fn program() -> Command {
    Command::new(env!("CARGO_BIN_EXE_rimonakh"))
}

#[test]
fn files_and_streams() {
    let reference = path("crates/objref/stdin");
    let named = program().arg("objref").arg(&reference).output().unwrap();
    let shown = ran(&["objref"], &file("crates/objref/stdin"));
    assert_eq!(
        (named.status.code(), &named.stdout[..]),
        (Some(0), shown.out.as_bytes())
    );
    let closed = program()
        .arg("objref")
        .stdin(Stdio::null())
        .output()
        .unwrap();
    assert_eq!(closed.status.code(), Some(2));
    let full = std::fs::File::create("/dev/full").unwrap();
    let unwritten = program()
        .arg("objref")
        .arg(&reference)
        .stdout(full)
        .output()
        .unwrap();
    assert_eq!(unwritten.status.code(), Some(2));
    assert!(String::from_utf8_lossy(&unwritten.stderr).starts_with("rimonakh: standard output: "));
}

/// More output than a pipe holds, of which nobody reads more than the first byte.
#[test]
fn closed_pipe() {
    let name = std::env::temp_dir().join(format!("rimonakh-full-{}", std::process::id()));
    std::fs::write(&name, full().snapshot().unwrap()).unwrap();
    let mut child = program()
        .args(["snapshot", "--json"])
        .arg(&name)
        .stdout(Stdio::piped())
        .stderr(Stdio::piped())
        .spawn()
        .unwrap();
    let mut first = [0];
    let mut out = child.stdout.take().unwrap();
    out.read_exact(&mut first).unwrap();
    drop(out);
    let ended = child.wait_with_output().unwrap();
    std::fs::remove_file(&name).unwrap();
    assert_eq!((ended.status.code(), &ended.stderr[..]), (Some(0), &[][..]));
}

/// Whatever the bytes are, each command ends with a status of its own.
#[test]
fn any_bytes() {
    let seeds = [
        file("crates/objref/stdin"),
        file("crates/snapshot/stdin"),
        file("examples/day.recording"),
    ];
    let mut random = 0x9E37_79B9_7F4A_7C15u64;
    let mut next = |below: usize| {
        random ^= random << 13;
        random ^= random >> 7;
        random ^= random << 17;
        (random % below.max(1) as u64) as usize
    };
    for round in 0..3000 {
        let mut bytes = seeds[round % 3].clone();
        for _ in 0..next(6) {
            let at = next(bytes.len());
            bytes[at] = next(256) as u8;
        }
        bytes.truncate(bytes.len() - next(2) * next(bytes.len()));
        if next(8) == 0 {
            bytes = (0..next(99))
                .map(|_| b"0123456789abcdefx:\n |*,"[next(23)])
                .collect();
        }
        for command in ["objref", "snapshot", "replay", "status"] {
            let found = ran(&[command, "--raw"], &bytes);
            assert!(found.status <= 2 && (found.status != 0 || found.err.is_empty()));
            assert!(ran(&[command], &bytes).status <= 2);
        }
        let found = ran(&["objref", "--find", "--raw"], &bytes);
        assert!(found.status <= 2);
    }
    let longest = vec![0xFF; 1 << 20];
    assert_eq!(ran(&["objref"], &longest).status, 1);
    assert_eq!(Reference::judge(&longest), Err(Error::Layout));
}
