//! Links the archive of the proved functions, which the proof toolchain writes. With the feature `compare` it links two that
//! stand side by side: the one to measure, and an older one whose functions have other names.

use std::path::Path;

const MADE: &str = "run `rt lib` in crates/goosedawn_c first";
const MADE_FOR_COMPARISON: &str = "`tests/compare` makes it";

fn link(folder: &str, name: &str, made: &str) {
    let top = Path::new(env!("CARGO_MANIFEST_DIR")).join("..");
    let archive = format!("{folder}/lib{name}.a");
    println!("cargo:rerun-if-changed={}", top.join(&archive).display());
    if !top.join(&archive).exists() {
        eprintln!("{archive} is missing: {made}");
        std::process::exit(1);
    }
    println!("cargo:rustc-link-search=native={}", top.join(folder).display());
    println!("cargo:rustc-link-lib=static={name}");
}

fn main() {
    if std::env::var_os("CARGO_FEATURE_COMPARE").is_some() {
        link("target/compare", "goosedawn_c", MADE_FOR_COMPARISON);
        link("target/compare", "goosedawn_c_old", MADE_FOR_COMPARISON);
    } else {
        link("crates/goosedawn_c/out", "goosedawn_c", MADE);
    }
}
