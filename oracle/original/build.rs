//! Copies the original's files to the build folder, for `include!`. Their
//! text stays as it is but for two rules: inner doc comments (`//!`), which
//! `include!` cannot carry, become plain ones; and a file is cut before the
//! first line that begins with its mark, where what follows is not part of
//! the port.

use std::path::{Path, PathBuf};

/// File, name of its copy, mark of the first line that is left out.
const FILES: [(&str, &str, Option<&str>); 4] = [
    ("entity/navigation.rs", "navigation.rs", None),
    ("entity/mob/constants.rs", "constants.rs", None),
    ("entity/mob/ai/path.rs", "path.rs", Some("fn solid(")),
    ("registry/collision.rs", "collision.rs", Some("fn to_aabb(")),
];

fn main() {
    println!("cargo:rerun-if-env-changed=WALKPRINT_RUST");
    let root = match std::env::var_os("WALKPRINT_RUST") {
        Some(folder) => PathBuf::from(folder),
        None => Path::new(env!("CARGO_MANIFEST_DIR")).join("../../../shared/docs/src"),
    };
    let sources = root.join("crates/unastar/src");
    let out = PathBuf::from(std::env::var_os("OUT_DIR").expect("cargo names the build folder"));
    for (file, name, mark) in FILES {
        let path = sources.join(file);
        println!("cargo:rerun-if-changed={}", path.display());
        let text = std::fs::read_to_string(&path).unwrap_or_else(|error| {
            panic!(
                "cannot read {}: {error}; set WALKPRINT_RUST to the folder of the original",
                path.display()
            )
        });
        std::fs::write(out.join(name), copied(&text, mark)).expect("the build folder is writable");
    }
}

fn copied(text: &str, mark: Option<&str>) -> String {
    let mut out = String::new();
    let mut cut = false;
    for line in text.lines() {
        if mark.is_some_and(|mark| line.starts_with(mark)) {
            cut = true;
            break;
        }
        match line.strip_prefix("//!") {
            Some(rest) => out.push_str(&format!("//{rest}\n")),
            None => out.push_str(&format!("{line}\n")),
        }
    }
    assert!(mark.is_none() || cut, "the mark {mark:?} is not there");
    out
}
