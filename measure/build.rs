// Links the archive, without which nothing can be measured: the repository's own, or that of the folder that SPEED_ARCHIVE names.
// And Hyperscan from the folder that SPEED_HYPERSCAN names.
use std::env;
use std::path::{Path, PathBuf};

const ARCHIVE: &str = "crates/exports/out/libexports.a";

/// The folder that a variable names, if it is set and names one.
fn named(variable: &str) -> Option<PathBuf> {
    println!("cargo:rerun-if-env-changed={variable}");
    env::var(variable)
        .ok()
        .filter(|folder| !folder.is_empty())
        .map(PathBuf::from)
}

fn archive_above(start: &Path) -> Option<PathBuf> {
    let mut paths = start.ancestors().map(|folder| folder.join(ARCHIVE));
    paths.find(|path| path.is_file())
}

fn main() {
    let here = env::var("CARGO_MANIFEST_DIR").expect("cargo names the package's folder");
    let own = named("SPEED_ARCHIVE").map(|folder| folder.join("libexports.a"));
    let Some(archive) = own.or_else(|| archive_above(Path::new(&here))) else {
        panic!("{ARCHIVE} is missing: run ./speed in the repository's folder, which makes it");
    };
    let folder = archive.parent().expect("a file lies in a folder");
    println!("cargo:rerun-if-changed={}", archive.display());
    println!("cargo:rustc-link-search=native={}", folder.display());
    println!("cargo:rustc-link-lib=static=exports");

    if env::var("CARGO_PKG_NAME").is_ok_and(|name| name == "speed-with-aho-corasick") {
        println!("cargo:rustc-cfg=aho_corasick");
    }
    if let Some(folder) = named("SPEED_HYPERSCAN") {
        println!("cargo:rustc-link-search=native={}", folder.display());
        println!("cargo:rustc-link-lib=dylib=hs");
        println!("cargo:rustc-cfg=hyperscan");
    }
}
