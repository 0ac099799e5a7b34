//! Links the port's static libraries to the programs that call them.
//! `MARKS_LIB` names their folder, by default the repository's
//! `target/staticlib`.

use std::env;
use std::path::PathBuf;

fn main() {
    let here = PathBuf::from(env::var("CARGO_MANIFEST_DIR").unwrap());
    let folder = env::var("MARKS_LIB")
        .map_or_else(|_| here.join("../../../target/staticlib"), PathBuf::from);
    println!("cargo:rerun-if-env-changed=MARKS_LIB");
    println!("cargo:rustc-link-search=native={}", folder.display());
    for name in ["marks", "probes"] {
        println!("cargo:rerun-if-changed={}", folder.join(format!("lib{name}.a")).display());
        // Not bundled, so that what calls neither is built without them.
        println!("cargo:rustc-link-lib=static:-bundle={name}");
    }
}
