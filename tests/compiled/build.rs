//! Links the archive that `tools/build probe` leaves to the program that calls it.
use std::path::Path;

fn main() {
    let here = std::env::var("CARGO_MANIFEST_DIR").unwrap();
    let probe = Path::new(&here).join("../../crates/probe/out/libprobe.a");
    println!("cargo:rerun-if-changed=build.rs");
    println!("cargo:rerun-if-changed={}", probe.display());
    println!("cargo:rustc-link-arg-bin=answers={}", probe.display());
}
