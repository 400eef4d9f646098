//! Links the static library `moka_c` and the kit's `libc_c`.
//!
//! `MOKA_C_DIR` is the folder of `libmoka_c.a`, and `RATTLE_KIT` the kit's folder. Without them these are
//! `crates/moka_c/out` of this repository, and the folder of the page that `rt doc` prints.

use std::env;
use std::path::{Path, PathBuf};
use std::process::Command;

fn main() {
    println!("cargo:rerun-if-env-changed=MOKA_C_DIR");
    println!("cargo:rerun-if-env-changed=RATTLE_KIT");
    let library = library_folder();
    let heap = kit_folder().join("c");
    require(&library.join("libmoka_c.a"), "build it: (cd crates/moka_c && rt lib)");
    require(&heap.join("liblibc_c.a"), "set RATTLE_KIT to the folder of a Rattle kit");
    println!("cargo:rerun-if-changed={}", library.join("libmoka_c.a").display());
    println!("cargo:rustc-link-search=native={}", library.display());
    println!("cargo:rustc-link-search=native={}", heap.display());
    println!("cargo:rustc-link-lib=static=moka_c");
    println!("cargo:rustc-link-lib=static=libc_c");
}

fn library_folder() -> PathBuf {
    match env::var_os("MOKA_C_DIR") {
        Some(folder) => folder.into(),
        None => {
            let here = env::var_os("CARGO_MANIFEST_DIR").expect("cargo sets CARGO_MANIFEST_DIR");
            Path::new(&here).join("../../crates/moka_c/out")
        }
    }
}

fn kit_folder() -> PathBuf {
    if let Some(folder) = env::var_os("RATTLE_KIT") {
        return folder.into();
    }
    let page = Command::new("rt")
        .arg("doc")
        .output()
        .expect("`rt` of a Rattle kit must be on the path, or RATTLE_KIT must be set");
    let page = String::from_utf8(page.stdout).expect("`rt doc` prints a path");
    let page = Path::new(page.trim());
    page.parent().expect("`rt doc` prints a path in a folder").into()
}

fn require(file: &Path, advice: &str) {
    assert!(file.is_file(), "{} is not there: {advice}", file.display());
}
