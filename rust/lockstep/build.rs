//! Links the real library when SSALDORIP_ARCHIVE names the folder of libssaldorip.a.

use std::env;
use std::path::Path;

fn main() {
    println!("cargo:rustc-check-cfg=cfg(ssaldorip_real)");
    println!("cargo:rerun-if-changed=build.rs");
    println!("cargo:rerun-if-env-changed=SSALDORIP_ARCHIVE");
    let Ok(folder) = env::var("SSALDORIP_ARCHIVE") else { return };
    if folder.is_empty() {
        return;
    }
    let folder = Path::new(&folder).canonicalize().expect("SSALDORIP_ARCHIVE is a folder");
    let archive = folder.join("libssaldorip.a");
    assert!(archive.is_file(), "{} is not there", archive.display());
    println!("cargo:rerun-if-changed={}", archive.display());
    println!("cargo:rustc-link-search=native={}", folder.display());
    println!("cargo:rustc-link-lib=static=ssaldorip");
    println!("cargo:rustc-env=SSALDORIP_LINKED={}", archive.display());
    println!("cargo:rustc-cfg=ssaldorip_real");
}
