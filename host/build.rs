//! Links `libsolver.a` and `libjudge.a`, which `archives.sh` makes in the repository's
//! `target/staticlib`. Each holds its own copy of the crates that they share; nothing of those is
//! seen from outside, so the two don't clash.

use std::{env, path::PathBuf};

/// The libraries with an exported function.
const LIBRARIES: [&str; 2] = ["solver", "judge"];

fn main() {
    let folder = staticlib_folder();
    println!("cargo:rustc-link-search=native={}", folder.display());
    println!("cargo:rerun-if-env-changed=RATTLE_STATICLIB");
    for library in LIBRARIES {
        let archive = folder.join(format!("lib{library}.a"));
        if !archive.exists() {
            println!(
                "cargo:warning={} is not there: run `bash archives.sh` in host/, \
                 or set RATTLE_STATICLIB to its folder",
                archive.display()
            );
        }
        println!("cargo:rustc-link-lib=static={library}");
        println!("cargo:rerun-if-changed={}", archive.display());
    }
}

/// The folder in `RATTLE_STATICLIB`, or the repository's own.
fn staticlib_folder() -> PathBuf {
    match env::var_os("RATTLE_STATICLIB") {
        Some(folder) => PathBuf::from(folder),
        None => PathBuf::from(env!("CARGO_MANIFEST_DIR")).join("../target/staticlib"),
    }
}
