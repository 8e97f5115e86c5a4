// Takes the original's files to where they are compiled. They are changed in nothing.
use std::path::{Path, PathBuf};
use std::{env, fs};

/// Taken whole.
const FILES: [&str; 9] = [
    "pos/mod.rs",
    "pos/varint.rs",
    "format/mod.rs",
    "format/abi.rs",
    "format/read.rs",
    "format/write.rs",
    "bytecode/chain.rs",
    "bytecode/positions.rs",
    "bytecode/sites.rs",
];

/// Parts of files that lean on much else: to what file each is taken, where it begins, and its last line.
const PARTS: [(&str, &str, &str, &str); 6] = [
    ("code.rs", "bytecode/code.rs", "pub mod tag {", "}"),
    ("code.rs", "bytecode/code.rs", "static WIDTHS: [u8; 256] = {", "};"),
    ("code.rs", "bytecode/code.rs", "pub fn width(", "}"),
    ("verify.rs", "bytecode/verify.rs", "#[derive(Debug, Clone, PartialEq, Eq)]\npub enum VerifyError {", "}"),
    ("parts.rs", "program.rs", "#[derive(Debug, Clone)]\npub struct Function {", "}"),
    ("parts.rs", "program.rs", "pub(crate) struct Parts<'a> {", "}"),
];

/// The original's folder `grain`.
fn original() -> PathBuf {
    println!("cargo:rerun-if-env-changed=GRAIN_ORIGINAL");
    let folder = match env::var_os("GRAIN_ORIGINAL") {
        Some(folder) => PathBuf::from(folder),
        None => PathBuf::from(env::var("CARGO_MANIFEST_DIR").unwrap()).join("../../../shared/docs/src"),
    };
    folder.join("grain")
}

fn text(file: &str) -> String {
    let from = original().join(format!("{file}.txt"));
    println!("cargo:rerun-if-changed={}", from.display());
    fs::read_to_string(&from).unwrap_or_else(|why| {
        panic!("the original is not at {} ({why}): set GRAIN_ORIGINAL to the folder that holds grain/", from.display())
    })
}

/// From the line that begins with `first` to the first line behind it that is `last`.
fn part(file: &str, first: &str, last: &str) -> String {
    let text = text(file);
    let start = text.find(&format!("\n{first}")).unwrap_or_else(|| panic!("{file} has no {first}")) + 1;
    let length = text[start..].find(&format!("\n{last}\n")).unwrap() + last.len() + 2;
    text[start..start + length].to_string()
}

fn store(to: &Path, text: &str) {
    fs::create_dir_all(to.parent().unwrap()).unwrap();
    fs::write(to, text).unwrap();
}

/// A module for each file, by its path: an inner doc comment may stand at the head of a file, and not in an `include!`.
fn modules(made: &Path, names: &[(&str, &str)]) -> String {
    names.iter().map(|(name, file)| format!("#[path = {:?}]\npub mod {name};\n", made.join(file))).collect()
}

fn main() {
    println!("cargo:rerun-if-changed=build.rs");
    let made = PathBuf::from(env::var("OUT_DIR").unwrap());
    for file in FILES {
        store(&made.join(file), &text(file));
    }
    for to in ["code.rs", "verify.rs", "parts.rs"] {
        let parts = PARTS.iter().filter(|part| part.0 == to);
        let texts: Vec<String> = parts.map(|(_, file, first, last)| part(file, first, last)).collect();
        store(&made.join(to), &texts.concat());
    }
    store(&made.join("pos.rs"), &modules(&made, &[("pos", "pos/mod.rs")]));
    store(&made.join("format.rs"), &modules(&made, &[("format", "format/mod.rs")]));
    let bytecode = [("chain", "bytecode/chain.rs"), ("positions", "bytecode/positions.rs"), ("sites", "bytecode/sites.rs")];
    store(&made.join("bytecode.rs"), &modules(&made, &bytecode));
}
