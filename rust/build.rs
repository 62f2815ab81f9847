//! Links libsleet.a: from the folder that SLEET_LIB_DIR names, else from where `./library` puts it.

use std::env::{var, var_os};
use std::path::PathBuf;

fn main() {
    println!("cargo:rerun-if-changed=build.rs");
    println!("cargo:rerun-if-env-changed=SLEET_LIB_DIR");
    // This crate stands in the repository's folder rust, beside target.
    let crate_folder = PathBuf::from(var_os("CARGO_MANIFEST_DIR").unwrap_or_default());
    let folder = match var_os("SLEET_LIB_DIR") {
        Some(named) => crate_folder.join(named),
        None => crate_folder.with_file_name("target").join("library/lib"),
    };
    let archive = folder.join("libsleet.a");
    println!("cargo:rerun-if-changed={}", archive.display());
    if !is_the_archives_target() {
        give_up("libsleet.a is for x86-64 Linux with 64-bit pointers, and so is this crate.");
    }
    if !archive.is_file() {
        give_up(&format!(
            "there is no archive at {}.\nRun ./library at the root of the Sleetbarley repository, \
             which proves and builds it,\nor set SLEET_LIB_DIR to the full path of the folder that has libsleet.a.",
            archive.display()
        ));
    }
    println!("cargo:rustc-link-search=native={}", folder.display());
    println!("cargo:rustc-link-lib=static=sleet");
}

fn is_the_archives_target() -> bool {
    let is = |name: &str, value: &str| var(name).as_deref() == Ok(value);
    is("CARGO_CFG_TARGET_ARCH", "x86_64")
        && is("CARGO_CFG_TARGET_OS", "linux")
        && is("CARGO_CFG_TARGET_POINTER_WIDTH", "64")
}

fn give_up(why: &str) -> ! {
    eprintln!("sleetbarley: {why}");
    std::process::exit(1)
}
