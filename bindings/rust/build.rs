//! Links the engine's archive: the one in the folder that BOPKHEUL_LIB_DIR names, or else a new one that the Rattle toolchain proves and writes.

use std::ffi::OsString;
use std::path::{Path, PathBuf};
use std::process::Command;
use std::{env, fs};

fn prove_archive(root: &Path) -> PathBuf {
    for entry in fs::read_dir(root.join("crates")).expect("the repository has crates/") {
        let folder = entry.expect("crates/ can be read").path();
        for part in ["src", "specs", "proofs"] {
            println!("cargo:rerun-if-changed={}", folder.join(part).display());
        }
    }
    println!("cargo:rerun-if-changed={}", root.join("crates.txt").display());
    let status = Command::new("rt").arg("lib").current_dir(root.join("crates/capi")).status();
    match status {
        Ok(status) if status.success() => root.join("crates/capi/out"),
        Ok(status) => panic!("`rt lib` in {}/crates/capi ended with {status}", root.display()),
        Err(error) => {
            panic!("`rt` (the Rattle toolchain) could not be run: {error}. Put it on the PATH, or let BOPKHEUL_LIB_DIR name a folder with libcapi.a")
        }
    }
}

fn given_archive(folder: OsString) -> PathBuf {
    let folder = fs::canonicalize(folder).expect("BOPKHEUL_LIB_DIR names a folder");
    println!("cargo:rerun-if-changed={}", folder.join("libcapi.a").display());
    folder
}

fn main() {
    println!("cargo:rerun-if-env-changed=BOPKHEUL_LIB_DIR");
    let folder = match env::var_os("BOPKHEUL_LIB_DIR") {
        Some(folder) => given_archive(folder),
        None => {
            let here = env::var_os("CARGO_MANIFEST_DIR").expect("cargo sets it");
            prove_archive(&fs::canonicalize(Path::new(&here).join("../..")).expect("the repository's root"))
        }
    };
    println!("cargo:rustc-link-search=native={}", folder.display());
    println!("cargo:rustc-link-lib=static=capi");
}
