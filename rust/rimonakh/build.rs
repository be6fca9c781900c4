//! Links librimonakh.a: that of the folder RIMONAKH_LIB_DIR where it is set, else the archive that `make` leaves in the repository, else
//! the one that pkg-config finds.

use std::env;
use std::path::{Path, PathBuf};
use std::process::Command;

const LIBRARY: &str = "librimonakh.a";

fn main() {
    println!("cargo::rerun-if-env-changed=RIMONAKH_LIB_DIR");
    println!("cargo::rerun-if-env-changed=PKG_CONFIG_PATH");
    let here = env::var_os("CARGO_MANIFEST_DIR").expect("cargo sets CARGO_MANIFEST_DIR");
    let set = env::var_os("RIMONAKH_LIB_DIR").map(PathBuf::from);
    let built = Path::new(&here).join("../../target");
    match folder(set, &built, || installed("rimonakh")) {
        Ok(folder) => {
            println!("cargo::rustc-link-search=native={}", folder.display());
            println!("cargo::rustc-link-lib=static=rimonakh");
        }
        Err(said) => println!("cargo::error={said}"),
    }
}

/// The folder with the library; or what to do, in one line.
pub fn folder(
    set: Option<PathBuf>,
    built: &Path,
    installed: impl FnOnce() -> Option<PathBuf>,
) -> Result<PathBuf, String> {
    if let Some(folder) = set {
        return match folder.join(LIBRARY).is_file() {
            true => Ok(folder),
            false => Err(format!(
                "RIMONAKH_LIB_DIR is {}, where no {LIBRARY} is",
                folder.display()
            )),
        };
    }
    let archive = built.join(LIBRARY);
    if archive.is_file() {
        println!("cargo::rerun-if-changed={}", archive.display());
        return Ok(built.to_path_buf());
    }
    let found = installed().filter(|folder| folder.join(LIBRARY).is_file());
    found.ok_or_else(|| {
        format!(
            "no {LIBRARY} {}: install it by `make install PREFIX=...` with PKG_CONFIG_PATH=.../lib/pkgconfig, \
             or set RIMONAKH_LIB_DIR to its folder, or run `make` in the repository",
            env!("CARGO_PKG_VERSION")
        )
    })
}

/// The folder of an installed library of this crate's version.
pub fn installed(name: &str) -> Option<PathBuf> {
    let asked = Command::new("pkg-config")
        .arg("--variable=libdir")
        .arg(format!("{name} = {}", env!("CARGO_PKG_VERSION")))
        .output();
    let answer = asked.ok().filter(|answer| answer.status.success())?;
    let folder = String::from_utf8(answer.stdout).ok()?;
    Some(PathBuf::from(folder.trim_end()))
}
