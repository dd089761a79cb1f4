//! Takes the crate's source where it lies, never a copy: SUBSETTER_SRC (the folder that holds
//! lib.rs), else shared/docs/src/src beside the repository. OUT_DIR/lib.rs is its lib.rs with the
//! inner doc comment and inner attributes dropped, since include! can't take them, and with each
//! `mod x;` given the path of the untouched file; `mod cff;` goes to the stub.
use std::path::{Path, PathBuf};
use std::{env, fs};

fn main() {
    let here = PathBuf::from(env::var("CARGO_MANIFEST_DIR").unwrap());
    let beside = here.join("../../../shared/docs/src/src");
    let src = env::var("SUBSETTER_SRC").map_or(beside, PathBuf::from);
    let src = src.canonicalize().expect("the crate's source: set SUBSETTER_SRC");
    let stub = here.join("../crate/src/cff_stub.rs");
    println!("cargo:rerun-if-env-changed=SUBSETTER_SRC");
    println!("cargo:rerun-if-changed={}", src.display());
    println!("cargo:rerun-if-changed={}", stub.display());
    let lib = fs::read_to_string(src.join("lib.rs")).unwrap();
    let out = PathBuf::from(env::var("OUT_DIR").unwrap()).join("lib.rs");
    fs::write(out, includable(&lib, &src, &stub)).unwrap();
}

fn includable(lib: &str, src: &Path, stub: &Path) -> String {
    let doc_end = lib.find("*/").expect("lib.rs opens with its doc comment") + 2;
    let mut text = String::new();
    for line in lib[doc_end..].lines().filter(|line| !line.starts_with("#![")) {
        if let Some(name) = line.strip_prefix("mod ").and_then(|rest| rest.strip_suffix(';')) {
            let file = if name == "cff" { stub.to_owned() } else { src.join(format!("{name}.rs")) };
            text += &format!("#[path = {file:?}]\n");
        }
        text += line;
        text.push('\n');
    }
    text
}
