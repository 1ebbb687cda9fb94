//! Links libperaduksi.a: from the folder that PERADUKSI_LIB names, or from where `rt lib --cpu x86-64` in crates/peraduksi writes it.

use std::env;
use std::path::PathBuf;

fn main() {
    println!("cargo:rerun-if-env-changed=PERADUKSI_LIB");
    let target = env::var("CARGO_CFG_TARGET_ARCH").unwrap_or_default();
    let folder = match env::var_os("PERADUKSI_LIB") {
        Some(folder) => PathBuf::from(folder),
        None => {
            assert!(target == "x86_64", "libperaduksi.a is for x86-64 programs, and this one is for {target}");
            PathBuf::from(env!("CARGO_MANIFEST_DIR")).join("../crates/peraduksi/out")
        }
    };
    let archive = folder.join("libperaduksi.a");
    assert!(archive.exists(), "{} is missing: run `rt lib --cpu x86-64` in crates/peraduksi", archive.display());
    println!("cargo:rerun-if-changed={}", archive.display());
    println!("cargo:rustc-link-search=native={}", folder.display());
    println!("cargo:rustc-link-lib=static=peraduksi");
}
