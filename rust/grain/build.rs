//! Finds the archive of the proved functions, and says what to run where it is missing.
use std::path::{Path, PathBuf};
use std::{env, process};

fn main() {
    println!("cargo:rerun-if-changed=build.rs");
    held_to_its_machine();
    let folder = root().join("target/staticlib");
    let archive = folder.join("libgrain.a");
    println!("cargo:rerun-if-changed={}", archive.display());
    if !archive.is_file() {
        missing(&archive);
    }
    println!("cargo:rustc-link-search=native={}", folder.display());
    println!("cargo:rustc-link-lib=static=grain");
}

/// The archive holds machine code for one kind of machine; the linker would say so less clearly.
fn held_to_its_machine() {
    let machine = env::var("CARGO_CFG_TARGET_ARCH").unwrap_or_default();
    if machine != "x86_64" {
        fail(&format!("the proved functions are compiled for x86_64, and this build is for {machine}"));
    }
}

/// The root of the repository: this crate is in rust/grain.
fn root() -> PathBuf {
    let here = PathBuf::from(env::var_os("CARGO_MANIFEST_DIR").unwrap_or_default());
    here.ancestors().nth(2).unwrap_or(&here).to_path_buf()
}

fn missing(archive: &Path) -> ! {
    fail(&format!(
        "the archive of the proved functions is missing: {}\n\
         Make it in the root of the repository with\n\n    rust/archive grain\n\n\
         or let rust/grain/run do it.",
        archive.display()
    ))
}

fn fail(why: &str) -> ! {
    eprintln!("\n{why}\n");
    process::exit(1)
}
