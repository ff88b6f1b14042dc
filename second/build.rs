//! Where `compare` finds the archives that `make` has built by `rt lib`: in the repository's target folder.

use std::env;
use std::path::Path;

fn main() {
    let second = env::var("CARGO_MANIFEST_DIR").expect("cargo sets it");
    let folder = Path::new(&second).join("../target/staticlib");
    println!("cargo:rustc-link-search=native={}", folder.display());
    for archive in ["liboffload.a", "libharness.a"] {
        println!("cargo:rerun-if-changed={}", folder.join(archive).display());
    }
}
