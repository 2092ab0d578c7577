//! Lays the Rust text out as a module tree, byte for byte.
//!
//! Only names of files change: `program_graph.rs` becomes `program_graph/mod.rs`, and `program_graph/run.rs` stands beside a
//! file `run.rs` that includes it and adds a child module. A child may read what is private to its parent. So it is with
//! `channel_system`, whose module `builder` is test code of ours.

use std::{
    env, fs,
    path::{Path, PathBuf},
};

const FILES: [(&str, &str); 7] = [
    ("time.rs", "time.rs"),
    ("program_graph.rs", "program_graph/mod.rs"),
    ("program_graph/builder.rs", "program_graph/builder.rs"),
    (
        "program_graph/transitions.rs",
        "program_graph/transitions.rs",
    ),
    ("program_graph/run.rs", "program_graph/run_text.rs"),
    ("channel_system.rs", "channel_system/mod.rs"),
    ("channel_system/run.rs", "channel_system/run_text.rs"),
];

/// The text has functions that only the layers above call, so an unused one is no mistake.
const MODULES: &str = "#[allow(dead_code)]\npub mod program_graph;\n\
    #[allow(dead_code)]\npub mod channel_system;\nmod time;\n";

fn main() {
    println!("cargo::rerun-if-env-changed=SCAN_SRC");
    let here = PathBuf::from(env::var_os("CARGO_MANIFEST_DIR").expect("set by cargo"));
    let out = PathBuf::from(env::var_os("OUT_DIR").expect("set by cargo"));
    let source = env::var_os("SCAN_SRC")
        .map_or_else(|| here.join("../../../shared/docs/src"), PathBuf::from)
        .join("scan_core/src");
    for folder in ["program_graph", "channel_system"] {
        fs::create_dir_all(out.join(folder)).expect("a folder for the text");
    }
    for (from, to) in FILES {
        copy(&source.join(from), &out.join(to));
    }
    for (module, text) in [
        (
            "program_graph/run.rs",
            run_module(&here.join("src/door.rs")),
        ),
        (
            "channel_system/run.rs",
            run_module(&here.join("src/system_door.rs")),
        ),
        (
            "channel_system/builder.rs",
            builder_module(&here.join("src/system_builder.rs")),
        ),
    ] {
        fs::write(out.join(module), text).expect("a module");
    }
    fs::write(out.join("text.rs"), MODULES).expect("the modules");
}

fn copy(from: &Path, to: &Path) {
    println!("cargo::rerun-if-changed={}", from.display());
    let text = fs::read(from).unwrap_or_else(|error| {
        panic!(
            "no Rust text at {}: {error}; set SCAN_SRC to the folder that has scan_core/src",
            from.display()
        )
    });
    fs::write(to, text).expect("a copy of the text");
}

fn run_module(door: &Path) -> String {
    format!("include!(\"run_text.rs\");\n#[path = {door:?}]\nmod door;\n")
}

fn builder_module(ours: &Path) -> String {
    format!("#[path = {ours:?}]\nmod ours;\npub use ours::*;\n")
}
