// What watches the blocks, the archive of the proved functions, and the runtime of libFuzzer, which has `main`.
use std::env;

fn main() {
    for name in ["BLOCKS", "GRAIN_ARCHIVE", "FUZZER_RUNTIME"] {
        let archive = env::var(name).unwrap();
        println!("cargo:rustc-link-arg-bins={archive}");
        println!("cargo:rerun-if-changed={archive}");
        println!("cargo:rerun-if-env-changed={name}");
    }
    println!("cargo:rustc-link-arg-bins=-lstdc++");
    // Fixed addresses, so that the list of blocks made from the program is right for the run.
    println!("cargo:rustc-link-arg-bins=-no-pie");
    println!("cargo:rerun-if-changed=build.rs");
}
