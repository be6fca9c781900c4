//! Archive, header, this crate and what `make install` says have one version.

mod repository;

use repository::file;

/// A number that the header defines.
fn defined(header: &str, name: &str) -> String {
    let line = format!("#define {name} ");
    let value = header.lines().find_map(|l| l.strip_prefix(&line));
    value.expect(name).to_string()
}

#[test]
fn one_version() {
    let header = file("include/rimonakh.h");
    let part = |name| defined(&header, &format!("RIMONAKH_VERSION_{name}"));
    let of_header = [part("MAJOR"), part("MINOR"), part("PATCH")].join(".");
    let (major, minor, patch) = rimonakh::version();
    assert_eq!(of_header, format!("{major}.{minor}.{patch}"));
    assert_eq!(of_header, env!("CARGO_PKG_VERSION"));
    let changes = file("CHANGELOG.md");
    let newest = changes.lines().find_map(|l| l.strip_prefix("## "));
    assert_eq!(
        newest.and_then(|l| l.split(' ').next()),
        Some(&of_header[..])
    );
}
