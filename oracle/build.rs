//! Links the archive that holds `pitavele_subset`: PITAVELE_LIB, else the one `tools/archive`
//! leaves in the repository.
use std::env;
use std::path::PathBuf;

fn main() {
    let here = PathBuf::from(env::var("CARGO_MANIFEST_DIR").unwrap());
    let usual = here.join("../target/staticlib/libpitavele_c.a");
    let archive = env::var("PITAVELE_LIB").map_or(usual, PathBuf::from);
    let archive = archive.canonicalize().expect("no archive: run tools/archive, or set PITAVELE_LIB");
    let stem = archive.file_stem().unwrap().to_str().unwrap();
    let name = stem.strip_prefix("lib").expect("an archive's name starts with lib");
    println!("cargo:rerun-if-env-changed=PITAVELE_LIB");
    println!("cargo:rerun-if-changed={}", archive.display());
    println!("cargo:rustc-link-search=native={}", archive.parent().unwrap().display());
    println!("cargo:rustc-link-lib=static={name}");
}
