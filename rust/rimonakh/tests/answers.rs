//! Header, conveniences and crate have the same answers, in the same words.

mod repository;

use repository::file;
use rimonakh::{Error, NoRefusal};

/// The number of an answer by its name in the header.
fn number(header: &str, name: &str) -> u32 {
    let line = format!("#define RIMONAKH_{name} UINT32_C(");
    let (_, rest) = header.split_once(&line).expect(name);
    let digits = rest.split(')').next();
    digits.and_then(|d| d.parse().ok()).expect(name)
}

/// A name of Rust's in the header's words.
fn in_capitals(name: &str) -> String {
    let mut capitals = String::new();
    for c in name.chars() {
        if c.is_uppercase() && !capitals.is_empty() {
            capitals.push('_');
        }
        capitals.push(c.to_ascii_uppercase());
    }
    capitals
}

#[test]
fn the_same_words() {
    let (header, more) = (file("include/rimonakh.h"), file("include/rimonakh_more.h"));
    let cases = more.lines().filter_map(|line| {
        let (name, rest) = line
            .trim()
            .strip_prefix("case RIMONAKH_")?
            .split_once(": ")?;
        let text = rest.strip_prefix("return \"")?.strip_suffix("\";")?;
        Some((name, text))
    });
    let mut said = 0;
    for (name, text) in cases.skip(1) {
        let error = Error::try_from(number(&header, name)).expect(name);
        assert_eq!(in_capitals(&format!("{error:?}")), name);
        assert_eq!(error.words(), text);
        assert_eq!(error.to_string(), format!("{text} ({})", error.number()));
        said += 1;
    }
    assert_eq!(said, Error::ALL.len());
}

#[test]
fn numbers_and_back() {
    for number in 0..100 {
        match Error::try_from(number) {
            Ok(error) => assert_eq!(u32::from(error), number),
            Err(none) => assert_eq!(none, NoRefusal(number)),
        }
    }
    assert!([0, 17, 25].map(Error::try_from).iter().all(Result::is_err));
    assert_eq!(NoRefusal(17).to_string(), "17 is the number of no refusal");
}
