//! Links the static library `bench_calls` from STATICLIB_DIR, or from the
//! repository's target/staticlib.

use std::env;
use std::path::Path;

fn main() {
    let manifest = env::var("CARGO_MANIFEST_DIR").expect("cargo sets the folder of this crate");
    let usual = Path::new(&manifest).join("../target/staticlib");
    let folder = env::var("STATICLIB_DIR").map_or(usual, Into::into);
    println!("cargo:rustc-link-search=native={}", folder.display());
    println!("cargo:rustc-link-lib=static=bench_calls");
    println!("cargo:rerun-if-changed={}", folder.join("libbench_calls.a").display());
    println!("cargo:rerun-if-env-changed=STATICLIB_DIR");
    println!("cargo:rerun-if-changed=build.rs");
}
