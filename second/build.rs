//! Links the library's archive when the feature `archive` is on.

use std::env;
use std::path::{Path, PathBuf};

const VARIABLE: &str = "GRAUPENZELT_LIB";
const USUAL_PLACE: &str = "../target/staticlib/libgraupenzelt.a";

fn main() {
    println!("cargo:rerun-if-env-changed={VARIABLE}");
    if env::var_os("CARGO_FEATURE_ARCHIVE").is_some() {
        link(&archive_path());
    }
}

/// The variable's path as it stands, or the usual place seen from this folder.
fn archive_path() -> PathBuf {
    match env::var_os(VARIABLE) {
        Some(path) => PathBuf::from(path),
        None => {
            let here = env::var_os("CARGO_MANIFEST_DIR").expect("cargo names this folder");
            Path::new(&here).join(USUAL_PLACE)
        }
    }
}

fn link(archive: &Path) {
    let archive = archive.canonicalize().unwrap_or_else(|error| {
        panic!("no archive at {} ({error}); build it or set {VARIABLE}", archive.display())
    });
    let folder = archive.parent().expect("a file stands in a folder");
    let stem = archive.file_stem().and_then(|stem| stem.to_str());
    let name = stem.and_then(|stem| stem.strip_prefix("lib")).expect("an archive is called lib*.a");
    println!("cargo:rerun-if-changed={}", archive.display());
    println!("cargo:rustc-link-search=native={}", folder.display());
    println!("cargo:rustc-link-lib=static={name}");
}
