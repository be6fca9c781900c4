//! Every figure of the status page is the snapshot's; nothing in a snapshot becomes HTML; a real browser shows the same, where one is
//! installed.

mod common;

use common::{full, ran, usual};
use rimonakh::snapshot::{Exporter, Object, Set};
use rimonakh::{Snapshot, Table};
use std::process::Command;

/// What stands between two marks.
fn between<'a>(html: &'a str, from: &str, to: &str) -> &'a str {
    let (_, rest) = html.split_once(from).unwrap_or_else(|| panic!("{from}"));
    rest.split_once(to).unwrap_or_else(|| panic!("{to}")).0
}

/// The text that a reader sees of HTML, with one space for each tag or run of spaces.
fn seen(html: &str) -> String {
    let mut text = String::new();
    for (k, part) in html.split('<').enumerate() {
        let behind = part.split_once('>').map_or("", |(_, text)| text);
        let shown = if k == 0 { part } else { behind };
        text.extend([" ", shown]);
    }
    for (name, c) in [
        ("&lt;", "<"),
        ("&gt;", ">"),
        ("&quot;", "\""),
        ("&#39;", "'"),
        ("&amp;", "&"),
    ] {
        text = text.replace(name, c);
    }
    text.split_whitespace().collect::<Vec<_>>().join(" ")
}

/// The cells of a section's table.
fn rows(html: &str, id: &str) -> Vec<Vec<String>> {
    let section = between(html, &format!("<section id=\"{id}\">"), "</section>");
    let Some((_, body)) = section.split_once("<tbody>") else {
        assert!(section.contains("None."));
        return vec![];
    };
    let cells = |row: &str| {
        row.split("<td")
            .skip(1)
            .map(|td| seen(&format!("<td{td}")))
            .collect()
    };
    body.split("<tr>").skip(1).map(cells).collect()
}

/// The widths of a section's bars, in tenths of a percent.
fn widths(html: &str, from: &str, to: &str) -> Vec<u64> {
    let bars = between(html, from, to).split("width:").skip(1);
    let tenths = |bar: &str| {
        bar.split('%')
            .next()
            .unwrap()
            .replace('.', "")
            .trim()
            .to_string()
    };
    bars.map(|bar| {
        let digits = tenths(bar);
        let whole = bar.split('%').next().unwrap().contains('.');
        digits.parse::<u64>().unwrap() * if whole { 1 } else { 10 }
    })
    .collect()
}

/// So many parts of a thousand, rounded down.
fn part(used: u64, of: u64) -> u64 {
    1000 * used / of
}

fn number(text: &str) -> u64 {
    let digits: String = text.chars().filter(char::is_ascii_digit).collect();
    digits.parse().unwrap_or_else(|_| panic!("{text}"))
}

fn long(n: u64) -> String {
    format!("0x{n:016x}")
}

fn state(silent: u64) -> &'static str {
    if silent < 240 {
        "live"
    } else if silent < 300 {
        "two pings missed"
    } else {
        "ends soon"
    }
}

/// The members of an unordered list in one cell, but for the words of what is folded.
fn listed(cell: &str) -> Vec<String> {
    let words: Vec<&str> = cell.split([' ', ',']).filter(|w| !w.is_empty()).collect();
    let folded = words.windows(2).position(|w| w[1] == "more");
    let mut found: Vec<String> = words.iter().map(|w| w.to_string()).collect();
    if let Some(at) = folded {
        let left: usize = found[at].parse().unwrap();
        assert_eq!(left, found.len() - at - 2);
        found.drain(at..at + 2);
    }
    found
}

fn check_object(s: &Snapshot, o: &Object, cells: &[String]) {
    let silent = s.clock - o.heard;
    assert_eq!(cells[0], long(o.oid.0));
    assert_eq!(cells[1], long(o.exporter.0));
    assert_eq!(number(&cells[2]), silent);
    let words = if o.no_ping {
        "not pinged"
    } else {
        state(silent)
    };
    assert_eq!(cells[4], words);
    let sets = s
        .sets
        .iter()
        .filter(|t| t.members.binary_search(&o.oid).is_ok());
    let sets: Vec<String> = sets.map(|t| t.number.0.to_string()).collect();
    let shown = listed(&cells[5]);
    assert!(shown == sets || sets.is_empty() && shown == ["none"]);
    let of: Vec<_> = s.interfaces.iter().filter(|i| i.object == o.oid).collect();
    let first = cells[6].split(' ').next().unwrap();
    assert_eq!(number(first), of.len() as u64);
    let private: u64 = of.iter().flat_map(|i| i.private).map(u64::from).sum();
    let public: u64 = of.iter().map(|i| u64::from(i.public)).sum();
    assert_eq!(number(&cells[7]), private + public);
}

fn check_objects(s: &Snapshot, html: &str) {
    let shown = rows(html, "objects");
    assert_eq!(shown.len(), s.objects.len());
    let mut before = (false, u64::MAX);
    let mut bars = widths(html, "<section id=\"objects\">", "</section>").into_iter();
    for cells in &shown {
        let found = s.objects.iter().find(|o| long(o.oid.0) == cells[0]);
        let o = found.unwrap();
        check_object(s, o, cells);
        let silent = s.clock - o.heard;
        assert!(o.no_ping && !before.0 || o.no_ping == before.0 && before.1 >= silent);
        before = (o.no_ping, silent);
        if !o.no_ping {
            assert_eq!(bars.next(), Some(part(silent, 360)));
        }
    }
    assert_eq!(bars.next(), None);
}

fn check_exporter(s: &Snapshot, x: &Exporter, cells: &[String]) {
    assert_eq!(cells[0], long(x.oxid.0));
    assert_eq!(cells[1], x.unknown.to_string());
    for b in x.strings() {
        let shown = b
            .address
            .to_string()
            .replace('\u{202e}', "\\u{202e}")
            .replace('\u{7}', "\\u{7}");
        assert!(
            cells[2].contains(&format!(":{shown}")),
            "{shown}: {}",
            cells[2]
        );
    }
    for b in x.securities() {
        assert!(cells[3].contains(&b.name.to_string()));
    }
    let objects = s.objects.iter().filter(|o| o.exporter == x.oxid).count();
    assert_eq!(number(&cells[4]), objects as u64);
    assert_eq!(number(&cells[5]), x.list().len() as u64);
}

fn check_set(s: &Snapshot, t: &Set, cells: &[String]) {
    let silent = s.clock - t.pinged;
    assert_eq!(number(&cells[0]), t.number.0);
    assert_eq!(number(&cells[1]), t.sequence.into());
    assert_eq!(number(&cells[2]), silent);
    assert_eq!(cells[4], state(silent));
    assert_eq!(number(&cells[5]), t.members.len() as u64);
    let members: Vec<String> = t.members.iter().map(|m| long(m.0)).collect();
    assert_eq!(listed(&cells[6]), members);
}

fn check_references(s: &Snapshot, html: &str) {
    let shown = rows(html, "references");
    assert_eq!(shown.len(), 9);
    for (k, cells) in shown.iter().enumerate() {
        let held =
            |i: &rimonakh::snapshot::Interface| if k == 0 { i.public } else { i.private[k - 1] };
        let counts: Vec<u64> = s.interfaces.iter().map(|i| held(i).into()).collect();
        assert_eq!(
            number(&cells[1]),
            counts.iter().filter(|n| **n > 0).count() as u64
        );
        assert_eq!(number(&cells[2]), counts.iter().sum::<u64>());
        let name = if k == 0 {
            "Public".into()
        } else {
            format!("Client {}, private", k - 1)
        };
        assert_eq!(cells[0], name);
    }
}

fn check_summary(s: &Snapshot, html: &str) {
    let clock = seen(
        between(html, "<p id=\"clock\"", "</p>")
            .split_once('>')
            .unwrap()
            .1,
    );
    let (time, next) = clock.split_once('.').unwrap();
    assert_eq!((number(time), number(next)), (s.clock, s.next_set.0));
    let pinged: Vec<&Object> = s.objects.iter().filter(|o| !o.no_ping).collect();
    let of = |name: &str| {
        pinged
            .iter()
            .filter(|o| state(s.clock - o.heard) == name)
            .count()
    };
    let (live, missed, soon) = (of("live"), of("two pings missed"), of("ends soon"));
    let other = s.objects.len() - pinged.len();
    let states = seen(between(html, "<p id=\"states\">", "</p>"));
    let said = format!(
        "Objects: {live} live {missed} two pings missed {soon} end soon {other} not pinged"
    );
    assert_eq!(states, said);
    let alone = pinged
        .iter()
        .filter(|o| !s.sets.iter().any(|t| t.members.contains(&o.oid)));
    let alone: Vec<String> = alone.map(|o| long(o.oid.0)).collect();
    match alone.is_empty() {
        true => assert!(!html.contains("id=\"alone\"")),
        false => {
            let shown = seen(between(html, "<div id=\"alone\" class=\"warn\">", "</div>"));
            let (count, ids) = shown.split_once(':').unwrap();
            assert_eq!(number(count), alone.len() as u64);
            assert_eq!(listed(ids), alone);
        }
    }
}

fn check_places(s: &Snapshot, html: &str) {
    let lists: usize = s.exporters.iter().map(|x| x.list().len()).sum();
    let used = [
        s.exporters.len(),
        s.objects.len(),
        s.interfaces.len(),
        s.sets.len(),
        lists,
    ];
    let most = [16, 128, 256, 32, 8192];
    let tiles =
        between(html, "<div id=\"places\" class=\"tiles\">", "<section").split("class=\"tile\"");
    let bars = widths(html, "<div id=\"places\" class=\"tiles\">", "<section");
    let tiles: Vec<&str> = tiles.skip(1).collect();
    assert_eq!((tiles.len(), bars.len()), (5, 5));
    for k in 0..5 {
        let shown = seen(&format!("<div{}", tiles[k]));
        let words: Vec<&str> = shown.split(' ').collect();
        assert_eq!(
            (number(words[0]), words[1], number(words[2])),
            (used[k] as u64, "of", most[k])
        );
        assert_eq!(bars[k], part(used[k] as u64, most[k]));
    }
}

/// Holds the page to the snapshot.
fn check(s: &Snapshot, html: &str) {
    check_summary(s, html);
    check_places(s, html);
    check_objects(s, html);
    check_references(s, html);
    let exporters = rows(html, "exporters");
    assert_eq!(exporters.len(), s.exporters.len());
    s.exporters
        .iter()
        .zip(&exporters)
        .for_each(|(x, cells)| check_exporter(s, x, cells));
    let sets = rows(html, "sets");
    assert_eq!(sets.len(), s.sets.len());
    s.sets
        .iter()
        .zip(&sets)
        .for_each(|(t, cells)| check_set(s, t, cells));
    let bars = widths(html, "<section id=\"sets\">", "</section>");
    let silent = s.sets.iter().map(|t| part(s.clock - t.pinged, 360));
    assert_eq!(bars, silent.collect::<Vec<_>>());
}

/// An empty, a usual and a full table.
fn tables() -> [(&'static str, Table); 3] {
    [
        ("empty", Table::new(100)),
        ("usual", usual()),
        ("full", full()),
    ]
}

fn page(snapshot: &[u8]) -> String {
    let made = ran(&["status", "--title", "Gateway <7> & \"more\""], snapshot);
    assert_eq!((made.status, &made.err[..]), (0, ""));
    made.out
}

#[test]
fn every_figure() {
    for (_, table) in tables() {
        let snapshot = table.snapshot().unwrap();
        let html = page(&snapshot);
        check(&Snapshot::read(&snapshot).unwrap(), &html);
        assert_eq!(
            between(&html, "<h1>", "</h1>"),
            "Gateway &lt;7&gt; &amp; &quot;more&quot;"
        );
    }
}

/// The tags are the page's own, whatever an address is; none runs or loads anything.
#[test]
fn nothing_runs_or_loads() {
    for (_, table) in tables() {
        let html = page(&table.snapshot().unwrap());
        for word in [
            "<script", "<img", "<link", "<iframe", "src=", "href=", "url(", "@import", "onerror",
            "\u{202e}", "\u{7}",
        ] {
            assert!(!html.contains(word), "{word}");
        }
    }
    let html = page(&full().snapshot().unwrap());
    assert_eq!(
        html.matches("&lt;script&gt;alert(1)&lt;/script&gt;&quot;&#39;&amp;\\u{202e}\\u{7}")
            .count(),
        16
    );
}

#[test]
fn written_to_a_file() {
    let name = std::env::temp_dir().join(format!("rimonakh-page-{}.html", std::process::id()));
    let snapshot = usual().snapshot().unwrap();
    let made = ran(&["status", "-o", name.to_str().unwrap()], &snapshot);
    assert_eq!((made.status, &made.out[..], &made.err[..]), (0, "", ""));
    let html = std::fs::read_to_string(&name).unwrap();
    std::fs::remove_file(&name).unwrap();
    assert!(html.contains("<title>Resolver status</title>"));
    check(&Snapshot::read(&snapshot).unwrap(), &html);
}

/// What headless Chromium makes of the page holds the same figures. Without the browser there is nothing to try.
#[test]
fn in_a_browser() {
    let folder = std::env::temp_dir().join(format!("rimonakh-pages-{}", std::process::id()));
    std::fs::create_dir_all(&folder).unwrap();
    for (name, table) in tables() {
        let snapshot = table.snapshot().unwrap();
        let file = folder.join(format!("{name}.html"));
        std::fs::write(&file, page(&snapshot)).unwrap();
        let shown = Command::new("timeout")
            .args(["120", "chromium", "--headless", "--no-sandbox"])
            .args(["--disable-gpu", "--dump-dom"])
            .arg(format!(
                "--user-data-dir={}",
                folder.join("profile").display()
            ))
            .arg(format!("file://{}", file.display()))
            .output()
            .unwrap();
        if shown.status.code() == Some(127) {
            println!("chromium is not installed");
            break;
        }
        assert!(shown.status.success());
        let html = String::from_utf8(shown.stdout).unwrap();
        check(&Snapshot::read(&snapshot).unwrap(), &html);
    }
    std::fs::remove_dir_all(&folder).unwrap();
}
