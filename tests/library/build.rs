//! Links the static libraries `test_calls` and `console` from STATICLIB_DIR, or
//! from the repository's target/staticlib.

use std::env;
use std::path::Path;

fn main() {
    let manifest = env::var("CARGO_MANIFEST_DIR").expect("cargo sets the folder of this crate");
    let usual = Path::new(&manifest).join("../../target/staticlib");
    let folder = env::var("STATICLIB_DIR").map_or(usual, Into::into);
    println!("cargo:rustc-link-search=native={}", folder.display());
    for name in ["test_calls", "console"] {
        println!("cargo:rustc-link-lib=static={name}");
        println!("cargo:rerun-if-changed={}", folder.join(format!("lib{name}.a")).display());
    }
    println!("cargo:rerun-if-env-changed=STATICLIB_DIR");
    println!("cargo:rerun-if-changed=build.rs");
}
