//! Has the functions that are measured by themselves linked, where their archive stands beside the
//! door's.

use std::env;
use std::path::PathBuf;

const ARCHIVE: &str = "libscales.a";

fn main() {
    println!("cargo::rustc-check-cfg=cfg(weighed)");
    println!("cargo::rerun-if-changed=build.rs");
    // Told by the door's build, where it has linked an archive.
    let Some(folder) = env::var_os("DEP_PORT_FOLDER").map(PathBuf::from) else {
        return;
    };
    let archive = folder.join(ARCHIVE);
    println!("cargo::rerun-if-changed={}", archive.display());
    if archive.is_file() {
        println!("cargo::rustc-cfg=weighed");
        println!("cargo::rustc-link-search=native={}", folder.display());
        println!("cargo::rustc-link-lib=static:+verbatim={ARCHIVE}");
    }
}
