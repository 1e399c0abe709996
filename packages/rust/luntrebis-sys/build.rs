//! Finds the library: the archive in LUNTREBIS_LIB_DIR, the archive in out/ of this checkout, that beside these crates in
//! a release's lib/, the installed library, by pkg-config, or the one in out/unproved/, which wasn't proved.
use std::env;
use std::fs;
use std::path::{Path, PathBuf};
use std::process::{exit, Command};

const ARCHIVE: &str = "libluntrebis.a";
const NOT_PROVED: &[u8] = b", not proved"; // In what the library says of its own making.

fn main() {
    println!("cargo:rerun-if-env-changed=LUNTREBIS_LIB_DIR");
    println!("cargo:rerun-if-env-changed=PKG_CONFIG_PATH");
    let crates = PathBuf::from(env::var_os("CARGO_MANIFEST_DIR").unwrap()).join("..");
    let below = [crates.join("../../out"), crates.join("../../../lib")];
    let named = env::var_os("LUNTREBIS_LIB_DIR").map(PathBuf::from);
    let there = below.into_iter().find(|it| it.join(ARCHIVE).exists());
    let unproved = Some(crates.join("../../out/unproved")).filter(|it| it.join(ARCHIVE).exists());
    if let Some(folder) = named.or(there) {
        link_archive(&folder.canonicalize().expect("LUNTREBIS_LIB_DIR is no folder"));
    } else if link_installed() {
    } else if let Some(folder) = unproved {
        println!("cargo:rerun-if-changed={}", crates.join("../../out").display()); // `make library` may leave one.
        link_archive(&folder.canonicalize().expect("a folder"));
    } else {
        eprintln!("there is no libluntrebis.a: `make try-library` builds one with no proof in a minute or two,");
        eprintln!("`make library` a proved one; or install the library, or set LUNTREBIS_LIB_DIR to its folder");
        exit(1);
    }
}

fn link_archive(folder: &Path) {
    println!("cargo:rerun-if-changed={}", folder.join(ARCHIVE).display());
    let holds = fs::read(folder.join(ARCHIVE)).expect("LUNTREBIS_LIB_DIR has no libluntrebis.a");
    if holds.windows(NOT_PROVED.len()).any(|it| it == NOT_PROVED) {
        println!("cargo:warning=luntrebis takes {}/{ARCHIVE}, which wasn't proved (`make library`)", folder.display());
    }
    println!("cargo:rustc-link-search=native={}", folder.display());
    println!("cargo:rustc-link-lib=static=luntrebis");
}

/// Links the library that `pkg-config` names. Returns whether there is one.
fn link_installed() -> bool {
    let told = Command::new("pkg-config").args(["--libs-only-L", "luntrebis"]).output();
    let Some(told) = told.ok().filter(|it| it.status.success()) else { return false };
    for word in String::from_utf8_lossy(&told.stdout).split_whitespace() {
        println!("cargo:rustc-link-search=native={}", word.trim_start_matches("-L"));
    }
    println!("cargo:rustc-link-lib=luntrebis");
    true
}
