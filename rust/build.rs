//! Links libssaldorip.a: from the folder that SSALDORIP_ARCHIVE names, or else from ../crates/ssaldorip/out.

use std::env;
use std::path::PathBuf;
use std::process::exit;

const ARCHIVE: &str = "libssaldorip.a";

fn main() {
    println!("cargo:rerun-if-changed=build.rs");
    println!("cargo:rerun-if-env-changed=SSALDORIP_ARCHIVE");

    let target = env::var("CARGO_CFG_TARGET_ARCH").unwrap() + "-" + &env::var("CARGO_CFG_TARGET_OS").unwrap();
    if target != "x86_64-linux" {
        stop(&format!("{ARCHIVE} is made for x86_64-linux, and this build is for {target}."));
    }

    let package = PathBuf::from(env::var_os("CARGO_MANIFEST_DIR").unwrap());
    let named = env::var_os("SSALDORIP_ARCHIVE").filter(|folder| !folder.is_empty());
    let folder = match &named {
        // A relative name is taken from the package, where cargo runs this program.
        Some(folder) => package.join(folder),
        None => package.join("../crates/ssaldorip/out"),
    };
    let archive = folder.join(ARCHIVE);
    // Also when it is not there yet: then its coming runs this program again.
    println!("cargo:rerun-if-changed={}", archive.display());
    if !archive.is_file() {
        let place = archive.display();
        stop(&match named {
            Some(_) => format!("{place} is not there. SSALDORIP_ARCHIVE names the folder that holds {ARCHIVE}."),
            None => format!(
                "{place} is not there. Make it with `rt lib` in crates/ssaldorip, \
                 or name the folder that holds {ARCHIVE} in SSALDORIP_ARCHIVE."
            ),
        });
    }
    println!("cargo:rustc-link-search=native={}", folder.display());
    println!("cargo:rustc-link-lib=static=ssaldorip");
}

// A message alone; a panic would put a trace around it.
fn stop(message: &str) -> ! {
    eprintln!("{message}");
    exit(1);
}
