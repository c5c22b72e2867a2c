//! Links the proved archive: $CAPGAUZE_ARCHIVE, or the one that `tools/build.sh library` writes in this repository.
use std::path::{Path, PathBuf};

fn main() {
    println!("cargo:rerun-if-env-changed=CAPGAUZE_ARCHIVE");
    let here = Path::new(env!("CARGO_MANIFEST_DIR"));
    let archive = std::env::var_os("CAPGAUZE_ARCHIVE")
        .map(PathBuf::from)
        .unwrap_or_else(|| here.join("../../target/staticlib/libcapgauze_c.a"));
    let archive = archive.canonicalize().unwrap_or_else(|_| {
        panic!("no {}: `tools/build.sh library` proves and writes it", archive.display())
    });
    let stem = archive.file_stem().and_then(|stem| stem.to_str());
    let name = stem.and_then(|stem| stem.strip_prefix("lib")).expect("an archive is libNAME.a");
    println!("cargo:rerun-if-changed={}", archive.display());
    println!("cargo:rustc-link-search=native={}", archive.parent().unwrap().display());
    println!("cargo:rustc-link-lib=static={name}");
}
