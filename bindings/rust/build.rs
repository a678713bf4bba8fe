//! Finds the static library, or builds it, and has it linked: README.md says in which order.

use std::env;
use std::path::{Path, PathBuf};
use std::process::Command;

const LIBRARY: &str = "libetherparse_c.a";

fn main() {
    for variable in [
        "ETHERPARSE_LIB_DIR",
        "PKG_CONFIG",
        "PKG_CONFIG_PATH",
        "PKG_CONFIG_LIBDIR",
    ] {
        println!("cargo:rerun-if-env-changed={variable}");
    }
    let folder = named()
        .or_else(installed)
        .or_else(|| beside().filter(|folder| has_library(folder)))
        .or_else(built)
        .expect("no libetherparse_c.a of this version: install it, with PKG_CONFIG_PATH if need be, or set ETHERPARSE_LIB_DIR");
    println!("cargo:rerun-if-changed={}", folder.join(LIBRARY).display());
    println!("cargo:rustc-link-search=native={}", folder.display());
    println!("cargo:rustc-link-lib=static=etherparse_c");
}

fn has_library(folder: &Path) -> bool {
    folder.join(LIBRARY).is_file()
}

// The folder of the environment, which has to have the library.
fn named() -> Option<PathBuf> {
    let folder = PathBuf::from(env::var_os("ETHERPARSE_LIB_DIR")?);
    assert!(has_library(&folder), "ETHERPARSE_LIB_DIR has no {LIBRARY}");
    Some(folder)
}

// The folder of an installed library of this crate's version.
fn installed() -> Option<PathBuf> {
    let ask = |question: &str| {
        let tool = env::var_os("PKG_CONFIG").unwrap_or_else(|| "pkg-config".into());
        let answer = Command::new(tool)
            .args([question, "etherparse"])
            .output()
            .ok()?;
        Some(String::from_utf8(answer.stdout).ok()?.trim_end().to_owned())
    };
    if ask("--modversion")? != env!("CARGO_PKG_VERSION") {
        return None;
    }
    Some(PathBuf::from(ask("--variable=libdir")?)).filter(|folder| has_library(folder))
}

// The folder of the crate in Rattle, if this crate is in its repository.
fn source() -> Option<PathBuf> {
    let here = PathBuf::from(env::var_os("CARGO_MANIFEST_DIR")?);
    let folder = here.parent()?.parent()?.join("crates/etherparse_c");
    folder.is_dir().then_some(folder)
}

fn beside() -> Option<PathBuf> {
    Some(source()?.join("out/lib"))
}

// Proves and builds the library, with all that are in its archive.
fn built() -> Option<PathBuf> {
    let status = Command::new("make").current_dir(source()?).status().ok()?;
    assert!(status.success(), "`make` failed");
    beside()
}
