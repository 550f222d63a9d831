//! Links the proved static library. It is looked for, in this order:
//! 1. in the folder that `ASTROLABE_LIB_DIR` names;
//! 2. in `crates/capi/out` of the repository, where `tools/library` writes `libcapi.a`;
//! 3. where pkg-config finds an installed `astrolabe` of this version (`./install PREFIX`).

use std::env;
use std::path::{Path, PathBuf};
use std::process::Command;

/// The library in the repository, and as `./install` names it.
const NAMES: [&str; 2] = ["capi", "astrolabe"];

fn main() {
    println!("cargo::rerun-if-env-changed=ASTROLABE_LIB_DIR");
    println!("cargo::rerun-if-env-changed=PKG_CONFIG_PATH");
    let named = env::var_os("ASTROLABE_LIB_DIR").map(PathBuf::from);
    let built = Path::new(env!("CARGO_MANIFEST_DIR")).join("../crates/capi/out");
    let found = match &named {
        Some(folder) => library_in(folder),
        None => library_in(&built).or_else(|| library_in(&installed()?)),
    };
    let folder = named.unwrap_or(built);
    // A warning, not an error: checking the crate and its documentation need no library.
    if found.is_none() {
        println!(
            "cargo::warning=no libcapi.a in {}: `tools/library` builds it, ASTROLABE_LIB_DIR names its folder, pkg-config finds an installed one",
            folder.display()
        );
    }
    let (folder, name) = found.unwrap_or((folder, NAMES[0]));
    println!("cargo::rerun-if-changed={}", folder.join(format!("lib{name}.a")).display());
    println!("cargo::rustc-link-search=native={}", folder.display());
    println!("cargo::rustc-link-lib=static={name}");
}

fn library_in(folder: &Path) -> Option<(PathBuf, &'static str)> {
    let name = NAMES.into_iter().find(|name| folder.join(format!("lib{name}.a")).exists())?;
    Some((folder.to_path_buf(), name))
}

/// The folder of the installed library, where its version is this crate's.
fn installed() -> Option<PathBuf> {
    let asked = ["--variable=libdir", concat!("astrolabe = ", env!("CARGO_PKG_VERSION"))];
    let output = Command::new("pkg-config").args(asked).output().ok()?;
    let folder = String::from_utf8(output.stdout).ok()?;
    output.status.success().then(|| PathBuf::from(folder.trim()))
}
