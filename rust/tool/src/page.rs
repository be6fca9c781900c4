//! The status page: what a snapshot holds, in one file of HTML. It has no script, and loads nothing.

use crate::liveness::{Liveness, Silence};
use crate::names;
use crate::show::snapshot::{places, sets_of};
use crate::show::{many, text};
use rimonakh::limits::{CLIENTS, SILENCE};
use rimonakh::snapshot::{Exporter, Object, Set};
use rimonakh::Snapshot;

/// The page of a snapshot.
pub fn page(s: &Snapshot, title: &str) -> String {
    let title = escaped(title);
    let parts = [
        summary(s),
        tiles(s),
        objects(s),
        exporters(s),
        references(s),
        sets(s),
    ];
    format!(
        "<!doctype html>\n<html lang=\"en\">\n<head>\n<meta charset=\"utf-8\">\n\
        <meta http-equiv=\"Content-Security-Policy\" content=\"default-src 'none'; style-src 'unsafe-inline'\">\n\
        <meta name=\"viewport\" content=\"width=device-width, initial-scale=1\">\n<title>{title}</title>\n\
        <style>\n{}</style>\n</head>\n<body>\n<main>\n<h1>{title}</h1>\n{}</main>\n</body>\n</html>\n",
        include_str!("page.css"),
        parts.concat()
    )
}

/// Text as HTML shows it.
fn escaped(text: &str) -> String {
    let mut out = String::new();
    for c in text.chars() {
        match c {
            '&' => out.push_str("&amp;"),
            '<' => out.push_str("&lt;"),
            '>' => out.push_str("&gt;"),
            '"' => out.push_str("&quot;"),
            '\'' => out.push_str("&#39;"),
            c => out.push(c),
        }
    }
    out
}

/// A number with a comma before each three digits.
fn grouped(n: u64) -> String {
    let digits = n.to_string();
    let mut out = String::new();
    for (k, digit) in digits.chars().enumerate() {
        if k > 0 && (digits.len() - k).is_multiple_of(3) {
            out.push(',');
        }
        out.push(digit);
    }
    out
}

fn id(n: u64) -> String {
    format!("<code class=\"id\">{n:#018x}</code>")
}

fn chip(class: &str, words: &str) -> String {
    format!("<span class=\"chip {class}\">{words}</span>")
}

/// A bar, with what it shows in words.
fn bar(kind: &str, class: &str, part: u64, of: u64) -> String {
    let tenths = 1000 * part.min(of) / of;
    let width = format!("{}.{}", tenths / 10, tenths % 10);
    format!(
        "<span class=\"{kind}\" role=\"img\" aria-label=\"{part} of {of}\"><i class=\"{class}\" style=\"width:{width}%\"></i></span>"
    )
}

/// A section with a table; `numbers` are the columns that stand to the right.
fn table(
    name: &str,
    heading: &str,
    columns: &[&str],
    numbers: &[usize],
    rows: Vec<Vec<String>>,
) -> String {
    let kind = |k: usize| {
        if numbers.contains(&k) {
            " class=\"n\""
        } else {
            ""
        }
    };
    let heads = columns.iter().enumerate();
    let heads: String = heads
        .map(|(k, c)| format!("<th scope=\"col\"{}>{c}</th>", kind(k)))
        .collect();
    let cell = |(k, html): (usize, &String)| {
        format!("<td{} data-name=\"{}\">{html}</td>", kind(k), columns[k])
    };
    let row = |cells: &Vec<String>| {
        let cells: String = cells.iter().enumerate().map(cell).collect();
        format!("<tr>{cells}</tr>\n")
    };
    let body = match rows.is_empty() {
        true => "<p class=\"soft\">None.</p>\n".to_string(),
        false => {
            let rows: String = rows.iter().map(row).collect();
            format!("<table>\n<thead><tr>{heads}</tr></thead>\n<tbody>\n{rows}</tbody>\n</table>\n")
        }
    };
    format!("<section id=\"{name}\">\n<h2>{heading}</h2>\n{body}</section>\n")
}

/// A silence as part of the longest, and in words; what is not pinged does not end.
fn silence(of: Silence) -> [String; 2] {
    let (class, words) = (of.liveness.class(), of.liveness.words());
    let time = match of.liveness {
        Liveness::NotPinged => String::new(),
        _ => bar("bar time", class, of.seconds, SILENCE),
    };
    [time, chip(class, words)]
}

/// The clock, and how the objects are.
fn summary(s: &Snapshot) -> String {
    let chips = Liveness::ALL.map(|state| {
        let is = |o: &&Object| Silence::of_object(s, o).liveness == state;
        let n = s.objects.iter().filter(is).count();
        let class = if n == 0 { "soft" } else { state.class() };
        chip(class, &format!("{n} {}", state.plural()))
    });
    let alone = s.objects.iter().filter(|o| !o.no_ping);
    let alone = alone.filter(|o| sets_of(s, o).is_empty());
    let alone: Vec<String> = alone.map(|o| id(o.oid.0)).collect();
    let alone = match alone.is_empty() {
        true => String::new(),
        false => format!(
            "<div id=\"alone\" class=\"warn\">{} in no set, so that nobody pings: {}</div>\n",
            many(alone.len(), "object"),
            folded(&alone, 12, ", ")
        ),
    };
    format!(
        "<p id=\"clock\" class=\"soft\">Clock {} s. The next ping set is {}.</p>\n<p id=\"states\">Objects: {}</p>\n{alone}",
        grouped(s.clock),
        grouped(s.next_set.0),
        chips.join(" ")
    )
}

/// The places used of each kind.
fn tiles(s: &Snapshot) -> String {
    let tile = |(name, used, of): (&str, usize, usize)| {
        let (used, of) = (used as u64, of as u64);
        let class = match 100 * used / of {
            95.. => "bad",
            80.. => "warn",
            _ => "",
        };
        let bar = bar("bar", class, used, of);
        let (used, of) = (grouped(used), grouped(of));
        format!("<div class=\"tile\"><b>{used}</b> <span class=\"soft\">of {of}</span><br>{name}{bar}</div>\n")
    };
    let tiles: String = places(s).into_iter().map(tile).collect();
    format!("<div id=\"places\" class=\"tiles\">\n{tiles}</div>\n")
}

/// The objects, the longest silent first and those that are not pinged last.
fn objects(s: &Snapshot) -> String {
    let mut rows: Vec<&Object> = s.objects.iter().collect();
    rows.sort_by_key(|o| (o.no_ping, o.heard, o.oid));
    let rows = rows.into_iter().map(|o| object(s, o)).collect();
    let heading = format!("Objects, by the time since they were heard; they end at {SILENCE} s");
    let of_silence = format!("of {SILENCE} s");
    let columns = [
        "Object",
        "Exporter",
        "Silent",
        &of_silence,
        "State",
        "Sets",
        "Interfaces",
        "References",
    ];
    table("objects", &heading, &columns, &[2, 7], rows)
}

fn object(s: &Snapshot, o: &Object) -> Vec<String> {
    let silent = Silence::of_object(s, o);
    let [time, state] = silence(silent);
    let sets: Vec<String> = sets_of(s, o).into_iter().map(grouped).collect();
    let sets = match sets.is_empty() {
        true if o.no_ping => "<span class=\"soft\">none</span>".to_string(),
        true => "<span class=\"warn\">none</span>".to_string(),
        false => folded(&sets, 8, ", "),
    };
    let interfaces = || s.interfaces.iter().filter(|i| i.object == o.oid);
    let names: Vec<&str> = interfaces().filter_map(|i| names::guid(&i.iid)).collect();
    let counts = interfaces().flat_map(|i| i.counts());
    vec![
        id(o.oid.0),
        id(o.exporter.0),
        format!("{} s", grouped(silent.seconds)),
        time,
        state,
        sets,
        format!(
            "{} <span class=\"soft\">{}</span>",
            interfaces().count(),
            names.join(", ")
        ),
        grouped(counts.map(u64::from).sum()),
    ]
}

/// The first of many, the rest to be opened.
fn folded(all: &[String], most: usize, between: &str) -> String {
    if all.len() <= most {
        return all.join(between);
    }
    let (first, rest) = all.split_at(most / 2);
    format!(
        "{}<details><summary>{} more</summary>{}</details>",
        first.join(between),
        rest.len(),
        rest.join(between)
    )
}

fn exporters(s: &Snapshot) -> String {
    let rows = s.exporters.iter().map(|x| exporter(s, x)).collect();
    let columns = [
        "OXID",
        "Remote unknown",
        "Addresses",
        "Security",
        "Objects",
        "List",
    ];
    table("exporters", "Exporters", &columns, &[4, 5], rows)
}

fn exporter(s: &Snapshot, x: &Exporter) -> Vec<String> {
    let named = |name: Option<&str>, what: &str, number: u16| {
        name.map_or_else(|| format!("{what} {number}"), str::to_string)
    };
    let addresses = x.strings().map(|b| {
        let protocol = named(names::protocol(b.tower), "tower", b.tower);
        format!("<code>{protocol}:{}</code>", escaped(&text(b.address)))
    });
    let addresses: Vec<String> = addresses.collect();
    let security = x.securities().map(|b| {
        let service = named(names::service(b.service), "service", b.service);
        format!("{service} <code>{}</code>", escaped(&text(b.name)))
    });
    let security: Vec<String> = security.collect();
    let objects = s.objects.iter().filter(|o| o.exporter == x.oxid).count();
    let or_none = |html: String| match html.is_empty() {
        true => "<span class=\"soft\">none</span>".to_string(),
        false => html,
    };
    vec![
        id(x.oxid.0),
        format!("<code>{}</code>", x.unknown),
        or_none(folded(&addresses, 4, "<br>")),
        or_none(folded(&security, 4, "<br>")),
        objects.to_string(),
        many(x.list().len(), "byte"),
    ]
}

/// The references that are held: public ones, and those of each client.
fn references(s: &Snapshot) -> String {
    let holders = (0..=CLIENTS as usize).map(|k| {
        let counts = s.interfaces.iter().map(|i| i.counts()[k]);
        let held = counts.clone().filter(|n| *n != 0).count();
        let name = match k {
            0 => "Public".to_string(),
            k => format!("Client {}, private", k - 1),
        };
        let sum = grouped(counts.map(u64::from).sum());
        vec![name, held.to_string(), sum]
    });
    let columns = ["Holder", "Interfaces", "References"];
    table(
        "references",
        "References, by client",
        &columns,
        &[1, 2],
        holders.collect(),
    )
}

fn sets(s: &Snapshot) -> String {
    let rows = s.sets.iter().map(|t| set(s, t)).collect();
    let of_silence = format!("of {SILENCE} s");
    let columns = [
        "Set",
        "Sequence",
        "Last ping",
        &of_silence,
        "State",
        "Members",
        "Objects",
    ];
    table("sets", "Ping sets", &columns, &[1, 2, 5], rows)
}

fn set(s: &Snapshot, t: &Set) -> Vec<String> {
    let silent = Silence::of_set(s, t);
    let [time, state] = silence(silent);
    let members: Vec<String> = t.members.iter().map(|m| id(m.0)).collect();
    vec![
        grouped(t.number.0),
        t.sequence.to_string(),
        format!("{} s ago", silent.seconds),
        time,
        state,
        t.members.len().to_string(),
        folded(&members, 6, " "),
    ]
}
