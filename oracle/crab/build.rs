//! Finds the unchanged Rust files of crab-usb 0.12.1 and hands their paths to `include!`.
//!
//! CRAB_USB_SRC names the folder that holds its `src` (default: ../shared/docs/src, from the top of this repository).
use std::{
    env,
    path::{Path, PathBuf},
};

const FILES: [(&str, &str); 10] = [
    ("CRAB_ERR", "src/err.rs"),
    ("CRAB_QUEUE", "src/backend/kmod/queue.rs"),
    ("CRAB_KMOD_TRANSFER", "src/backend/kmod/transfer.rs"),
    ("CRAB_TY_TRANSFER", "src/backend/ty/transfer.rs"),
    ("CRAB_RING", "src/backend/kmod/xhci/ring.rs"),
    ("CRAB_ENDPOINT", "src/backend/kmod/xhci/endpoint.rs"),
    ("CRAB_EVENT", "src/backend/kmod/xhci/event.rs"),
    ("CRAB_TRANSFER", "src/backend/kmod/xhci/transfer.rs"),
    ("CRAB_CMD", "src/backend/kmod/xhci/cmd.rs"),
    ("CRAB_DEF", "src/backend/kmod/xhci/def.rs"),
];

fn find(folder: &Path, name: &str) -> PathBuf {
    let path = folder.join(name);
    if path.is_file() {
        return path.canonicalize().expect("an absolute path");
    }
    panic!(
        "{name} is not below {}: CRAB_USB_SRC names the folder of crab-usb 0.12.1",
        folder.display()
    )
}

fn main() {
    println!("cargo::rerun-if-env-changed=CRAB_USB_SRC");
    println!("cargo::rustc-cfg=kmod");
    let folder = match env::var("CRAB_USB_SRC") {
        Ok(folder) => PathBuf::from(folder),
        Err(_) => Path::new(&env::var("CARGO_MANIFEST_DIR").expect("cargo sets it")).join("../../../shared/docs/src"),
    };
    for (variable, name) in FILES {
        let path = find(&folder, name);
        println!("cargo::rerun-if-changed={}", path.display());
        println!("cargo::rustc-env={variable}={}", path.display());
    }
}
