//! Lays the original's files where `include!` can take them.

use std::path::{Path, PathBuf};
use std::{env, fs};

const VARIABLE: &str = "DOORPIGEON_ORIGINAL";

/// Each file of the original, and its name in the build's own folder.
const FILES: [(&str, &str); 3] = [
    ("generic/src/decision.rs", "decision.rs"),
    ("netlist/src/logic.rs", "logic.rs"),
    ("netlist/src/cell/decision.rs", "cell.rs"),
];

fn main() {
    println!("cargo:rerun-if-env-changed={VARIABLE}");
    let out = PathBuf::from(env::var("OUT_DIR").expect("cargo sets OUT_DIR"));
    let original = original();
    for (from, to) in FILES {
        let from = original.join(from);
        println!("cargo:rerun-if-changed={}", from.display());
        let text = fs::read_to_string(&from).unwrap_or_else(|e| panic!("{}: {e}; set {VARIABLE}", from.display()));
        fs::write(out.join(to), without_inner_docs(&text)).expect("the build's folder takes files");
    }
    if env::var_os("CARGO_FEATURE_PORT").is_some() {
        link_port();
    }
}

/// The port's static library stands where the script `staticlib` writes it.
fn link_port() {
    let folder = root().join("target/staticlib");
    println!("cargo:rerun-if-changed={}", folder.join("libabi.a").display());
    println!("cargo:rustc-link-search=native={}", folder.display());
    println!("cargo:rustc-link-lib=static=abi");
}

/// The root of the repository.
fn root() -> PathBuf {
    Path::new(&env::var("CARGO_MANIFEST_DIR").expect("cargo sets CARGO_MANIFEST_DIR")).join("..")
}

/// The folder named by the variable, else the repository's, else that of a folder `shared` beside the repository.
fn original() -> PathBuf {
    if let Some(folder) = env::var_os(VARIABLE) {
        return PathBuf::from(folder);
    }
    let places = ["docs/src", "../shared/docs/src"].map(|place| root().join(place));
    places.iter().find(|place| place.join(FILES[0].0).is_file()).unwrap_or(&places[0]).clone()
}

/// `include!` refuses `//!` lines; they are emptied, so every other line keeps its number.
fn without_inner_docs(text: &str) -> String {
    text.lines().map(|line| if line.starts_with("//!") { "\n".into() } else { format!("{line}\n") }).collect()
}
