//! Links libmarks.a, which `tools/build` proves and writes. `MARKS_LIB`
//! names its folder, by default the repository's `target/staticlib`.

use std::env;
use std::path::PathBuf;

fn main() {
    let here = PathBuf::from(env::var("CARGO_MANIFEST_DIR").unwrap());
    let folder =
        env::var("MARKS_LIB").map_or_else(|_| here.join("../../target/staticlib"), PathBuf::from);
    println!("cargo:rerun-if-env-changed=MARKS_LIB");
    println!("cargo:rerun-if-changed={}", folder.join("libmarks.a").display());
    println!("cargo:rustc-link-search=native={}", folder.display());
    println!("cargo:rustc-link-lib=static=marks");
    println!("cargo:rustc-link-lib=m");
}
