//! Finds the archive: the file that NJUNNEMAR_LIB names, else dist/lib/libnjunnemar.a of the repository (made by `tools/dist`).

use std::{env, path::PathBuf, process::exit};

fn main() {
    println!("cargo::rerun-if-env-changed=NJUNNEMAR_LIB");
    if env::var("CARGO_CFG_TARGET_ARCH").as_deref() != Ok("x86_64") {
        refuse("the archive is for x86-64: build with --target x86_64-unknown-linux-gnu, and run with an emulator");
    }
    let here = PathBuf::from(env::var_os("CARGO_MANIFEST_DIR").expect("set by cargo"));
    let archive = env::var_os("NJUNNEMAR_LIB").map_or_else(|| here.join("../../dist/lib/libnjunnemar.a"), PathBuf::from);
    println!("cargo::rerun-if-changed={}", archive.display());
    let Ok(archive) = archive.canonicalize() else {
        refuse(&format!("no archive at {}: make it by tools/dist of the repository, or name one in NJUNNEMAR_LIB", archive.display()))
    };
    let (Some(folder), Some(file)) = (archive.parent(), archive.file_name()) else { refuse("NJUNNEMAR_LIB names no file") };
    println!("cargo::rustc-link-search=native={}", folder.display());
    println!("cargo::rustc-link-lib=static:+verbatim={}", file.to_string_lossy());
}

/// Cargo stops at an error that is told so, and shows it.
fn refuse(why: &str) -> ! {
    println!("cargo::error={why}");
    exit(0)
}
