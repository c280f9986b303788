//! Finds the archive of proved functions and has it linked; where there is none, keeps the reason.
//!
//! The cfg `archive` is decided here alone. An archive that the variable names must be there and is
//! linked on any machine; without it one that stands at a usual place is, if it fits the machine.

use std::env;
use std::path::{Path, PathBuf};

/// The variable that names an archive.
const NAMED: &str = "PILAQSEVI_ARCHIVE";
/// What it says where no archive is to be linked, though one may be there.
const NONE: &str = "none";
/// Where `tools/archive` writes it, for x86-64 only, and where `tools/native` does, for the machine
/// at hand; seen from this package.
const SHIPPED: &str = "../../target/staticlib/libport.a";
const NATIVE: &str = "../../target/native/libport.a";

fn main() {
    println!("cargo::rustc-check-cfg=cfg(archive)");
    println!("cargo::rerun-if-env-changed={NAMED}");
    println!("cargo::rerun-if-changed=build.rs");
    match archive() {
        Ok(path) => link(&path),
        Err(why) => println!("cargo::rustc-env=PILAQSEVI_ABSENT={why}"),
    }
}

/// The archive to link, or why there is none.
fn archive() -> Result<PathBuf, String> {
    if let Some(named) = env::var_os(NAMED).filter(|named| !named.is_empty()) {
        if named == NONE {
            return Err(format!("{NAMED} says that none is to be linked"));
        }
        let named = PathBuf::from(named);
        if !named.is_file() {
            println!("cargo::error={NAMED} names no file");
        }
        return Ok(named);
    }
    let built_for = env::var("CARGO_CFG_TARGET_ARCH").unwrap_or_default();
    let built_on = env::var("HOST").unwrap_or_default();
    let shipped = usual(SHIPPED).filter(|_| built_for == "x86_64");
    let native = usual(NATIVE).filter(|_| built_on.split('-').next() == Some(&built_for));
    shipped.or(native).ok_or_else(|| {
        format!(
            "no archive of the proved functions for {built_for} was there at the build; \
             `tools/archive` writes one for x86-64 and `tools/native` one for the machine at hand"
        )
    })
}

/// The archive at a usual place, if it is there. Watched even where it is missing, so that the next
/// build finds it.
fn usual(place: &str) -> Option<PathBuf> {
    let place = Path::new(env!("CARGO_MANIFEST_DIR")).join(place);
    println!("cargo::rerun-if-changed={}", place.display());
    place.canonicalize().ok()
}

fn link(archive: &Path) {
    let (Some(folder), Some(file)) = (archive.parent(), archive.file_name()) else {
        return println!("cargo::error={NAMED} names no file");
    };
    println!("cargo::rerun-if-changed={}", archive.display());
    println!("cargo::rustc-cfg=archive");
    println!("cargo::rustc-link-search=native={}", folder.display());
    println!("cargo::rustc-link-lib=static:+verbatim={}", file.display());
    // For the packages that depend on this one: whether there is an archive, and what stands beside it.
    println!("cargo::metadata=folder={}", folder.display());
}
