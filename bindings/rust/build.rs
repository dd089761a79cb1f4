//! Links the proved archive, libpitavele_c.a: PITAVELE_LIB names it, else it is the repository's
//! (tools/archive leaves the one for x86-64, tools/native-staticlib the one for Arm).
use std::env;
use std::path::{Path, PathBuf};
use std::process::exit;

fn main() {
    println!("cargo:rerun-if-env-changed=PITAVELE_LIB");
    let archive = env::var_os("PITAVELE_LIB").map_or_else(usual, PathBuf::from);
    // Watched even while it is absent, so that the next build finds it.
    println!("cargo:rerun-if-changed={}", archive.display());
    if !archive.is_file() {
        fail(&format!(
            "no archive {}: run ./pitavele once in Pitavele's repository, or set PITAVELE_LIB to libpitavele_c.a",
            archive.display()
        ));
    }
    let name = archive.file_stem().and_then(|stem| stem.to_str()?.strip_prefix("lib"));
    let Some(name) = name else { fail("PITAVELE_LIB must be named lib….a") };
    let folder = archive.parent().unwrap_or(Path::new("."));
    println!("cargo:rustc-link-search=native={}", folder.display());
    println!("cargo:rustc-link-lib=static={name}");
}

fn usual() -> PathBuf {
    let folder = match env::var("CARGO_CFG_TARGET_ARCH").as_deref() {
        Ok("x86_64") => "staticlib",
        Ok("aarch64") => "native",
        _ => fail("Pitavele is built for x86-64 and for Arm (aarch64) only"),
    };
    let crate_folder = env::var_os("CARGO_MANIFEST_DIR").expect("cargo sets it");
    Path::new(&crate_folder).join("../../target").join(folder).join("libpitavele_c.a")
}

fn fail(why: &str) -> ! {
    eprintln!("pitavele: {why}");
    exit(1)
}
