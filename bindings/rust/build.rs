//! Links libpochahuic.a, which `bindings/archive` builds where it is absent or old.

use std::process::Command;

fn main() {
    let printed = Command::new("bash")
        .arg("../archive")
        .output()
        .expect("bindings/archive could not be started");
    assert!(
        printed.status.success(),
        "libpochahuic.a was not built: {}",
        String::from_utf8_lossy(&printed.stderr)
    );
    let path = String::from_utf8(printed.stdout).expect("the archive's path is text");
    let folder = path.trim_end().strip_suffix("/libpochahuic.a").expect("the archive's name");
    println!("cargo:rustc-link-search=native={folder}");
    println!("cargo:rustc-link-lib=static=pochahuic");
    println!("cargo:rerun-if-changed=../../crates");
    println!("cargo:rerun-if-changed={}", path.trim_end());
}
