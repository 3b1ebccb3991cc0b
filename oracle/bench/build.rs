//! DOCK_C names the folder of libdock_c.a, which `rt lib` writes in crates/dock_c.
use std::env;

fn main() {
    println!("cargo::rerun-if-env-changed=DOCK_C");
    println!("cargo::rustc-check-cfg=cfg(ours)");
    if let Ok(folder) = env::var("DOCK_C") {
        println!("cargo::rerun-if-changed={folder}/libdock_c.a");
        println!("cargo::rustc-link-search=native={folder}");
        println!("cargo::rustc-link-lib=static=dock_c");
        println!("cargo::rustc-cfg=ours");
    }
}
