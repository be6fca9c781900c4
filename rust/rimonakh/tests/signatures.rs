//! The header and the declarations in Rust have the arguments of the proved functions, by name, order and type.

mod repository;

use repository::file;
use std::collections::BTreeMap;

/// Of each function its arguments, `name: type` in Rust's words, and the number that it returns, if it is no struct.
type Signatures = BTreeMap<String, (Vec<String>, Option<String>)>;

/// A type in Rust's words: that of a number, or of a struct that is handed in by value; nothing for another struct.
fn number(of: &str) -> Option<String> {
    let name = match of {
        "uint64_t" => "u64",
        "uint32_t" => "u32",
        "uint16_t" => "u16",
        "uint8_t" => "u8",
        "size_t" => "usize",
        "rimonakh_fragments" => "Fragments",
        "Fragments" | "bool" | "u64" | "u32" | "u16" | "u8" | "usize" => of,
        _ => return None,
    };
    Some(name.to_string())
}

/// A number, or the pointer to numbers that `pointer` says.
fn typed(pointer: &str, of: &str) -> String {
    pointer.to_string() + &number(of).expect(of)
}

/// The functions of a text: what stands before the name, the arguments between the parentheses, what stands behind.
fn functions(text: &str) -> impl Iterator<Item = (&str, &str, Vec<&str>, &str)> {
    text.match_indices("rimonakh_").filter_map(move |(at, _)| {
        let (name, rest) = text[at..].split_once('(')?;
        let name = name.trim_end_matches("<'a>");
        let plain = |b: u8| b.is_ascii_lowercase() || b == b'_';
        if !name.bytes().all(plain) {
            return None;
        }
        let (arguments, after) = rest.split_once(')')?;
        let arguments = arguments.split(',').map(str::trim);
        let before = text[..at].lines().last().unwrap_or("").trim();
        let given = arguments.filter(|a| !matches!(*a, "" | "void")).collect();
        Some((before, name, given, after))
    })
}

/// The functions of `c_api` and `c_headers`; a slice is a pointer and a length.
fn proved() -> Signatures {
    let mut found = Signatures::new();
    for path in [
        "c_api/src/lib",
        "c_api/src/bytes",
        "c_api/src/calls",
        "c_api/src/packets",
        "c_headers/src/lib",
    ] {
        let text = file(&format!("crates/{path}.rt"));
        for (before, name, arguments, after) in functions(&text) {
            if before != "pub extern \"C\" fn" {
                continue;
            }
            let mut given = Vec::new();
            for argument in arguments {
                let (name, of) = argument.split_once(": ").expect(argument);
                match of.strip_prefix('&') {
                    None => given.push(format!("{name}: {}", typed("", of))),
                    Some(slice) => {
                        let mutable = slice.starts_with("mut ");
                        let element = slice.trim_start_matches("mut ");
                        let element = element.trim_matches(['[', ']']);
                        let pointer = if mutable { "*mut " } else { "*const " };
                        given.push(format!("{name}: {}", typed(pointer, element)));
                        given.push(format!("{name}_len: usize"));
                    }
                }
            }
            let returned = after.trim_start().strip_prefix("-> ").expect(name);
            let returned = returned.split_whitespace().next().expect(name);
            found.insert(name.to_string(), (given, number(returned)));
        }
    }
    found
}

/// The functions of the header. `public` and `private` are words of C++, so its arguments have other names.
fn declared_in_c() -> Signatures {
    let text = file("include/rimonakh.h");
    let of = |(before, name, arguments, _): (&str, &str, Vec<&str>, &str)| {
        let argument = |a: &str| {
            let (of, name) = a.rsplit_once(' ').expect(a);
            let (of, constant) = match of.strip_prefix("const ") {
                Some(of) => (of, true),
                None => (of, false),
            };
            let pointer = match (name.starts_with('*'), constant) {
                (false, _) => "",
                (true, false) => "*mut ",
                (true, true) => "*const ",
            };
            let name = name.trim_start_matches('*').trim_end_matches("_refs");
            format!("{name}: {}", typed(pointer, of))
        };
        let given = arguments.into_iter().map(argument).collect();
        (name.to_string(), (given, number(before)))
    };
    functions(&text).map(of).collect()
}

fn declared_in_rust() -> Signatures {
    let text = file("rust/rimonakh/src/ffi.rs");
    let of = |(_, name, arguments, after): (&str, &str, Vec<&str>, &str)| {
        let returned = after.trim_start().strip_prefix("-> ").expect(name);
        let returned = returned.split(';').next().expect(name);
        let given = arguments.into_iter().map(str::to_string).collect();
        (name.to_string(), (given, number(returned)))
    };
    functions(&text).map(of).collect()
}

fn same(demanded: &Signatures, declared: &Signatures) {
    for (name, signature) in demanded {
        assert_eq!(declared.get(name), Some(signature), "{name}");
    }
    assert_eq!(declared.len(), demanded.len());
}

#[test]
fn header() {
    same(&proved(), &declared_in_c());
}

#[test]
fn rust() {
    same(&proved(), &declared_in_rust());
}
