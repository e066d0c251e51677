//! Finds `libbootmem.a`: in the folder that `BOOTMEM_LIB_DIR` names, by `pkg-config bootmem`, or in
//! `/usr/local/lib` and `/usr/lib`. Without it the build ends with what to do.

use std::{env, path::Path, process::Command};

const ARCHIVE: &str = "libbootmem.a";

/// The folders that pkg-config names.
fn by_pkg_config() -> Vec<String> {
    let told = Command::new("pkg-config")
        .args(["--libs-only-L", "--keep-system-libs", "bootmem"])
        .output();
    let Ok(told) = told else { return Vec::new() };
    let folders = String::from_utf8_lossy(&told.stdout).into_owned();
    folders
        .split_whitespace()
        .filter_map(|word| word.strip_prefix("-L"))
        .map(String::from)
        .collect()
}

/// The folder of the archive, or the folders in which it isn't.
fn folder() -> Result<String, Vec<String>> {
    let folders = match env::var("BOOTMEM_LIB_DIR") {
        Ok(folder) => vec![folder],
        Err(_) => {
            let mut folders = by_pkg_config();
            folders.extend(["/usr/local/lib", "/usr/lib"].map(String::from));
            folders
        }
    };
    let found = folders
        .iter()
        .find(|folder| Path::new(folder).join(ARCHIVE).is_file());
    found.cloned().ok_or(folders)
}

fn main() {
    println!("cargo:rerun-if-env-changed=BOOTMEM_LIB_DIR");
    println!("cargo:rerun-if-env-changed=PKG_CONFIG_PATH");
    let folder = folder().unwrap_or_else(|folders| {
        eprintln!("bootmem: there is no {ARCHIVE} in {}", folders.join(", "));
        eprintln!("bootmem: one of these helps:");
        eprintln!("  - set BOOTMEM_LIB_DIR to the folder that has it ('make lib' builds it at the top of bootmem's sources)");
        eprintln!("  - install the package bootmem-dev ('make deb' makes it), or run 'make install' after 'make lib'");
        eprintln!("  - without the library, run the program 'bootmem-json' as a process, which prints the reports as JSON");
        // in the sources there is one obvious command; an installed crate has no Makefile above it
        let own = env::var("CARGO_MANIFEST_DIR").unwrap_or_default();
        if let Ok(top) = Path::new(&own).join("../..").canonicalize() {
            if top.join("Makefile").is_file() {
                let top = top.display();
                eprintln!("next: make -C '{top}' lib && export BOOTMEM_LIB_DIR='{top}'");
            }
        }
        std::process::exit(1);
    });
    println!("cargo:rerun-if-changed={folder}/{ARCHIVE}");
    println!("cargo:rustc-link-search=native={folder}");
    println!("cargo:rustc-link-lib=static=bootmem");
}
