//! Finds `libjp.a`: in the folder that `JP_LIB_DIR` names, or beside this file, where the archive of a release has it, or in
//! `bindings/out`, where `bindings/build` makes it, or in `out/unproved/lib`, where `bindings/build --unproved` makes it,
//! which is called where it is in none.

use std::env;
use std::path::{Path, PathBuf};
use std::process::{exit, Command};

const LIBRARY: &str = "libjp.a";

fn main() {
    println!("cargo:rerun-if-env-changed=JP_LIB_DIR");
    let here = Path::new(env!("CARGO_MANIFEST_DIR"));
    let folder = match env::var_os("JP_LIB_DIR") {
        Some(folder) => watched(PathBuf::from(folder)),
        None if here.join(LIBRARY).is_file() => watched(here.to_path_buf()),
        None => of_the_repository(&here.join("..")),
    };
    let library = folder.join(LIBRARY);
    if !library.is_file() {
        eprintln!("error: {} is not there", library.display());
        eprintln!("help: run bindings/build at the top of the repository of jp, which proves and makes it,");
        eprintln!("      or set JP_LIB_DIR to a folder that has libjp.a");
        exit(1);
    }
    println!("cargo:rustc-link-search=native={}", folder.display());
    println!("cargo:rustc-link-lib=static=jp");
}

/// The folder, whose library Cargo looks at from now on. One that is missing is looked for by each build.
fn watched(folder: PathBuf) -> PathBuf {
    println!("cargo:rerun-if-changed={}", folder.join(LIBRARY).display());
    folder
}

/// The folder of the proved library, or else of the one without proofs, which is made where it is missing.
fn of_the_repository(bindings: &Path) -> PathBuf {
    let proved = watched(bindings.join("out"));
    let build = bindings.join("build");
    if proved.join(LIBRARY).is_file() || !build.is_file() {
        return proved;
    }
    let unproved = watched(bindings.join("../out/unproved/lib"));
    if !unproved.join(LIBRARY).is_file() {
        make(&build);
    }
    println!("cargo:warning=libjp.a is built without proofs; bindings/build makes the proved one");
    unproved
}

/// Makes the library without proofs, which takes some minutes.
fn make(build: &Path) {
    let is_made = Command::new(build)
        .arg("--unproved")
        .status()
        .is_ok_and(|status| status.success());
    if !is_made {
        eprintln!("error: {} --unproved made no library", build.display());
        exit(1);
    }
}
