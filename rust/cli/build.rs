//! Builds the command with GLPK where it is installed (a program with `glpk.h` compiles and links), else without: then the
//! formats MPS and LP and the subcommand `solve` say so. `ASTROLABE_GLPK=no` leaves it out.

use std::env;
use std::path::{Path, PathBuf};
use std::process::{Command, Stdio};

fn main() {
    println!("cargo::rustc-check-cfg=cfg(glpk)");
    println!("cargo::rerun-if-env-changed=ASTROLABE_GLPK");
    println!("cargo::rerun-if-changed=src/glpk/options.c");
    println!("cargo::rerun-if-changed=/usr/include/glpk.h");
    let wanted = env::var_os("ASTROLABE_GLPK").is_none_or(|word| word != "no");
    let folder = PathBuf::from(env::var_os("OUT_DIR").expect("cargo sets OUT_DIR"));
    if wanted && links(&folder) && compiles(&folder) {
        println!("cargo::rustc-cfg=glpk");
        println!("cargo::rustc-link-arg={}", folder.join("options.o").display());
        println!("cargo::rustc-link-arg=-lglpk");
    }
}

/// Whether a program that asks GLPK for its version can be linked.
fn links(folder: &Path) -> bool {
    let program = folder.join("glpk_there.c");
    let text = "#include <glpk.h>\nint main(void) { return glp_version() == 0; }\n";
    std::fs::write(&program, text).is_ok()
        && cc(&[
            program.as_os_str(),
            "-o".as_ref(),
            folder.join("glpk_there").as_os_str(),
            "-lglpk".as_ref(),
        ])
}

fn compiles(folder: &Path) -> bool {
    cc(&[
        "-O2".as_ref(),
        "-c".as_ref(),
        "src/glpk/options.c".as_ref(),
        "-o".as_ref(),
        folder.join("options.o").as_os_str(),
    ])
}

fn cc(words: &[&std::ffi::OsStr]) -> bool {
    let compiler = env::var_os("CC").unwrap_or("cc".into());
    let run =
        Command::new(compiler).args(words).stdout(Stdio::null()).stderr(Stdio::null()).status();
    run.is_ok_and(|status| status.success())
}
