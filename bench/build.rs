//! Only the programs that time bytes, packets, triplets and preview pages link the archive of `tools/build probe`, and the first three
//! libzvbi: the others build without them.
use std::path::Path;

fn main() {
    let here = std::env::var("CARGO_MANIFEST_DIR").unwrap();
    let probe = Path::new(&here).join("../crates/probe/out/libprobe.a");
    println!("cargo:rerun-if-changed=build.rs");
    println!("cargo:rerun-if-changed={}", probe.display());
    for bin in ["bytes", "packets", "triplets", "previews"] {
        println!("cargo:rustc-link-arg-bin={bin}={}", probe.display());
    }
    for bin in ["bytes", "packets", "triplets"] {
        println!("cargo:rustc-link-arg-bin={bin}=-lzvbi");
    }
}
