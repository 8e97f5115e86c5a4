// The comparison is linked with both archives of the proved functions; the sample's program is not. GRAIN_ARCHIVE may name
// another libgrain.a, one with a fault in it.
use std::env;
use std::path::PathBuf;

fn main() {
    let here = PathBuf::from(env::var("CARGO_MANIFEST_DIR").unwrap());
    let archives = here.join("../target/staticlib");
    let grain = env::var("GRAIN_ARCHIVE").map_or(archives.join("libgrain.a"), PathBuf::from);
    for archive in [archives.join("libbeside.a"), grain] {
        println!("cargo:rustc-link-arg-bin=beside={}", archive.display());
        println!("cargo:rerun-if-changed={}", archive.display());
    }
    println!("cargo:rerun-if-env-changed=GRAIN_ARCHIVE");
    println!("cargo:rerun-if-changed=build.rs");
}
