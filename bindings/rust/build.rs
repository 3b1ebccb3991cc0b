//! Where the static library is: the folder that THNAOLUPS_LIB_DIR names, else crates/dock_c/out of the repository, where `rt lib` writes it.
use std::{env, path::PathBuf};

fn main() {
    let folder = match env::var_os("THNAOLUPS_LIB_DIR") {
        Some(folder) => PathBuf::from(folder),
        None => PathBuf::from(env!("CARGO_MANIFEST_DIR")).join("../../crates/dock_c/out"),
    };
    let archive = folder.join("libdock_c.a");
    if !archive.exists() {
        println!(
            "cargo:warning=no {}: `rt lib` writes it, in crates/dock_c of the repository",
            archive.display()
        );
    }
    println!("cargo:rerun-if-env-changed=THNAOLUPS_LIB_DIR");
    println!("cargo:rerun-if-changed={}", archive.display());
    println!("cargo:rustc-link-search=native={}", folder.display());
    println!("cargo:rustc-link-lib=static=dock_c");
}
