//! Links the register's library, the file that DONZHIKAR_LIBRARY names, and what the comparison needs of the machine, in C.

use std::env;
use std::path::{Path, PathBuf};
use std::process::Command;

const MACHINE: &str = "machine.c";

fn main() {
    println!("cargo:rerun-if-env-changed=DONZHIKAR_LIBRARY");
    let named = env::var("DONZHIKAR_LIBRARY").expect("DONZHIKAR_LIBRARY names the library to compare with the model");
    let library = Path::new(&named).canonicalize().unwrap_or_else(|error| panic!("{named}: {error}"));
    println!("cargo:rerun-if-changed={}", library.display());
    println!("cargo:rerun-if-changed={MACHINE}");
    println!("cargo:rustc-link-arg-bins={}", compiled().display());
    println!("cargo:rustc-link-arg-bins={}", library.display());
}

fn compiled() -> PathBuf {
    let object = Path::new(&env::var("OUT_DIR").expect("a folder to build in")).join("machine.o");
    let status = Command::new("cc")
        .args(["-std=c11", "-O2", "-Wall", "-Wextra", "-Werror", "-c", MACHINE, "-o"])
        .arg(&object)
        .status();
    assert!(status.is_ok_and(|status| status.success()), "{MACHINE} does not compile");
    object
}
