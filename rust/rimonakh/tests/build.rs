//! Where the build finds the library, and what it says where it doesn't.

#[allow(dead_code)]
#[path = "../build.rs"]
mod build;

use build::folder;
use std::fs;
use std::path::PathBuf;

/// A new folder for a test, with the library or without.
fn made(name: &str, library: bool) -> PathBuf {
    let folder = PathBuf::from(env!("CARGO_TARGET_TMPDIR")).join(name);
    let _ = fs::remove_dir_all(&folder);
    fs::create_dir_all(&folder).unwrap();
    if library {
        fs::write(folder.join("librimonakh.a"), name).unwrap();
    }
    folder
}

#[test]
fn in_this_order() {
    let (set, installed) = (made("set", true), made("installed", true));
    let (built, nowhere) = (made("repository", true), made("nowhere", false));
    let asked = || panic!("pkg-config is asked last");

    assert_eq!(folder(Some(set.clone()), &built, asked), Ok(set));
    assert_eq!(folder(None, &built, asked), Ok(built));
    let found = folder(None, &nowhere, || Some(installed.clone()));
    assert_eq!(found, Ok(installed));
}

#[test]
fn one_line_that_says_what_to_do() {
    let empty = made("empty", false);
    let wrong = folder(Some(empty.clone()), &empty, || None).unwrap_err();
    assert!(wrong.starts_with("RIMONAKH_LIB_DIR is ") && wrong.ends_with("no librimonakh.a is"));
    for found in [None, Some(empty.clone())] {
        let said = folder(None, &empty, || found).unwrap_err();
        for way in [
            "make install",
            "PKG_CONFIG_PATH",
            "RIMONAKH_LIB_DIR",
            "run `make`",
        ] {
            assert!(said.contains(way), "{said}");
        }
        assert!(!said.contains('\n') && !wrong.contains('\n'));
    }
    assert_eq!(build::installed("no-such-library"), None);
}
