//! Tells this package's tests whether the door has linked an archive.

fn main() {
    println!("cargo::rustc-check-cfg=cfg(archive)");
    println!("cargo::rerun-if-changed=build.rs");
    // Told by the door's build, where it has linked one.
    if std::env::var_os("DEP_PORT_FOLDER").is_some() {
        println!("cargo::rustc-cfg=archive");
    }
}
