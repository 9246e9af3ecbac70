//! Lays rand's own files, unchanged, where `src/lib.rs` finds them.
//!
//! rand's `distr` names modules whose files were not delivered, and the compiler looks for a module beside the file that
//! names it. So a folder of links is made in `OUT_DIR`, rand's files and the stubs for the missing ones side by side, and
//! a file of module items that lead there. No file is copied. Package `rand_base` is built by this file too, without a feature.

use std::env;
use std::fs;
use std::io;
use std::os::unix::fs::symlink;
use std::path::{Path, PathBuf};

/// The files of rand that are compiled, below its `src`.
const DELIVERED: [&str; 16] = [
    "distr/distribution.rs",
    "distr/float.rs",
    "distr/mod.rs",
    "distr/uniform.rs",
    "distr/uniform_int.rs",
    "distr/utils.rs",
    "distr/weighted/mod.rs",
    "distr/weighted/weighted_index.rs",
    "rngs/small.rs",
    "rngs/xoshiro256plusplus.rs",
    "seq/coin_flipper.rs",
    "seq/increasing_uniform.rs",
    "seq/index.rs",
    "seq/iterator.rs",
    "seq/mod.rs",
    "seq/slice.rs",
];

/// Our stand-ins, below `stubs`, for files that rand's own files name and that were not delivered.
const STUBS: [&str; 6] = [
    "distr/bernoulli.rs",
    "distr/integer.rs",
    "distr/other.rs",
    "distr/slice.rs",
    "distr/uniform_float.rs",
    "distr/uniform_other.rs",
];

/// The modules that `src/lib.rs` takes in: the name, how it is seen, and its file.
const MODULES: [(&str, &str, &str); 4] = [
    ("pub", "distr", "distr/mod.rs"),
    ("pub", "seq", "seq/mod.rs"),
    ("", "small", "rngs/small.rs"),
    ("", "xoshiro256plusplus", "rngs/xoshiro256plusplus.rs"),
];

fn main() -> io::Result<()> {
    println!("cargo::rerun-if-env-changed=RAND_SRC");
    let package = PathBuf::from(variable("CARGO_MANIFEST_DIR"));
    let source = source_folder(&package);
    if let Some(missing) = DELIVERED.iter().find(|file| !source.join(file).is_file()) {
        println!(
            "cargo::error=rand's source is not there: no file {} (set RAND_SRC to the folder of rand 0.10.3 that holds src/)",
            source.join(missing).display()
        );
        return Ok(());
    }
    let out = PathBuf::from(variable("OUT_DIR"));
    let tree = out.join("rand");
    if tree.exists() {
        fs::remove_dir_all(&tree)?;
    }
    link(&source, &DELIVERED, &tree)?;
    link(&package.join("../rand/stubs"), &STUBS, &tree)?;
    fs::write(out.join("distr_and_seq.rs"), items(&tree, &MODULES[..2]))?;
    fs::write(out.join("rngs.rs"), items(&tree, &MODULES[2..]))
}

/// An environment variable that Cargo sets for every build script.
fn variable(name: &str) -> String {
    env::var(name).unwrap_or_else(|error| panic!("{name}: {error}"))
}

/// The folder `src` of rand: of `RAND_SRC`, else of the delivery beside the repository.
fn source_folder(package: &Path) -> PathBuf {
    let root = env::var_os("RAND_SRC").map(PathBuf::from);
    root.unwrap_or_else(|| package.join("../../../shared/docs/src"))
        .join("src")
}

/// Puts a link to each of `files`, which stand below `folder`, at the same path below `tree`.
fn link(folder: &Path, files: &[&str], tree: &Path) -> io::Result<()> {
    for file in files {
        let target = folder.join(file).canonicalize()?;
        let place = tree.join(file);
        println!("cargo::rerun-if-changed={}", target.display());
        fs::create_dir_all(place.parent().unwrap_or(tree))?;
        symlink(target, place)?;
    }
    Ok(())
}

/// The module items. Warnings are off in these files: they are another's, and are not edited here.
fn items(tree: &Path, modules: &[(&str, &str, &str)]) -> String {
    modules
        .iter()
        .map(|(seen, name, file)| {
            let path = tree.join(file);
            format!("#[allow(warnings, clippy::all)]\n#[path = {path:?}]\n{seen} mod {name};\n")
        })
        .collect()
}
