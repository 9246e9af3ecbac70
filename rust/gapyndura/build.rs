//! Tells Cargo where the archive of the C boundary is. The whole link line stands here.

use std::env;
use std::path::{Path, PathBuf};

/// Where `rt lib` lays the archive, seen from this package.
const FOLDER: &str = "../../crates/capi/out";

/// The variable that names another folder: of an archive that is installed, or of another version.
const OTHER: &str = "GAPYNDURA_ARCHIVE";

/// The archive's name where it is made, and where `tools/install` has put it.
const NAMES: [&str; 2] = ["capi", "gapyndura"];

fn archive(folder: &Path, name: &str) -> PathBuf {
    folder.join(format!("lib{name}.a"))
}

fn main() {
    let package = env::var_os("CARGO_MANIFEST_DIR").expect("Cargo sets CARGO_MANIFEST_DIR");
    let folder = env::var_os(OTHER).unwrap_or_else(|| FOLDER.into());
    let folder = PathBuf::from(package).join(folder);
    println!("cargo::rerun-if-env-changed={OTHER}");
    let found = NAMES.iter().find(|name| archive(&folder, name).is_file());
    if found.is_none() {
        // No error: documentation and a check link nothing. What does link stops at the last line here, and Cargo says this again beside it.
        println!(
            "cargo::warning=there is no archive in {}, so nothing can be linked: make it with `rt lib` in crates/capi of the repository, \
             or name its folder in {OTHER}",
            folder.display()
        );
    }
    let name = found.unwrap_or(&NAMES[0]);
    // While it is not there, Cargo runs this again in every build.
    println!(
        "cargo::rerun-if-changed={}",
        archive(&folder, name).display()
    );
    println!("cargo::rustc-link-search=native={}", folder.display());
    println!("cargo::rustc-link-lib=static={name}");
}
