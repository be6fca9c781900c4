//! JSON, by hand: no crate of a registry is used. Written only, never read.

use std::fmt::{self, Display, Write};

pub enum Json {
    Number(u64),
    Bool(bool),
    Null,
    Text(String),
    List(Vec<Json>),
    Object(Vec<(&'static str, Json)>),
}

pub fn text(value: impl Display) -> Json {
    Json::Text(value.to_string())
}

pub fn number(value: impl Into<u64>) -> Json {
    Json::Number(value.into())
}

/// A length or a count.
pub fn size(value: usize) -> Json {
    Json::Number(value as u64)
}

/// An identifier of 64 bits, as text: many readers keep 53 bits of a number.
pub fn wide(value: u64) -> Json {
    text(format_args!("{value:#018x}"))
}

pub fn list(values: impl IntoIterator<Item = Json>) -> Json {
    Json::List(values.into_iter().collect())
}

/// A text, or null where there is none.
pub fn named(name: Option<&str>) -> Json {
    name.map_or(Json::Null, text)
}

impl Display for Json {
    fn fmt(&self, f: &mut fmt::Formatter<'_>) -> fmt::Result {
        match self {
            Json::Number(n) => write!(f, "{n}"),
            Json::Bool(b) => write!(f, "{b}"),
            Json::Null => f.write_str("null"),
            Json::Text(t) => quoted(f, t),
            Json::List(l) => {
                f.write_char('[')?;
                for (k, value) in l.iter().enumerate() {
                    write!(f, "{}{value}", if k == 0 { "" } else { "," })?;
                }
                f.write_char(']')
            }
            Json::Object(o) => {
                f.write_char('{')?;
                for (k, (name, value)) in o.iter().enumerate() {
                    f.write_str(if k == 0 { "" } else { "," })?;
                    quoted(f, name)?;
                    write!(f, ":{value}")?;
                }
                f.write_char('}')
            }
        }
    }
}

fn quoted(f: &mut fmt::Formatter<'_>, text: &str) -> fmt::Result {
    f.write_char('"')?;
    for c in text.chars() {
        match c {
            '"' | '\\' => write!(f, "\\{c}")?,
            c if c.is_control() => write!(f, "\\u{:04x}", c as u32)?,
            c => f.write_char(c)?,
        }
    }
    f.write_char('"')
}
