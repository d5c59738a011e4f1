//! Links the core's static library from the folder QRH_LIB_DIR, or else from the repository's
//! target/staticlib.

use std::env;
use std::path::PathBuf;

/// The library's name: it is libNAME.a (scripts/library.sh has it too).
const NAME: &str = "qrh";

fn main() {
    println!("cargo::rerun-if-env-changed=QRH_LIB_DIR");
    if env::var_os("CARGO_FEATURE_LINK").is_none() {
        return;
    }
    let folder = env::var_os("QRH_LIB_DIR").map_or_else(
        || PathBuf::from(env!("CARGO_MANIFEST_DIR")).join("../../target/staticlib"),
        PathBuf::from,
    );
    let library = folder.join(format!("lib{NAME}.a"));
    println!("cargo::rerun-if-changed={}", library.display());
    if !library.exists() {
        println!(
            "cargo::error={} is not there: scripts/build.sh makes it, and QRH_LIB_DIR names another \
             folder",
            library.display()
        );
    }
    println!("cargo::rustc-link-search=native={}", folder.display());
    println!("cargo::rustc-link-lib=static={NAME}");
}
