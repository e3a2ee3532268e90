//! Finds the archive `libharness.a` and the original's text.
//!
//! `HARNESS_LIB` is the folder of the archive (default: target/staticlib of the repository, where
//! `host/archive` puts it). `ORIGINAL` is the folder of the original's cpu.rs (default:
//! ../shared/docs/src, beside the repository). The text is compiled where it lies and never copied.

use std::env;
use std::fs;
use std::path::{Path, PathBuf};

fn main() {
    println!("cargo:rerun-if-env-changed=HARNESS_LIB");
    println!("cargo:rerun-if-env-changed=ORIGINAL");
    println!("cargo:rustc-check-cfg=cfg(original)");
    let here = PathBuf::from(env::var("CARGO_MANIFEST_DIR").unwrap());
    let root = here.parent().unwrap().to_path_buf();

    let folder = match env::var("HARNESS_LIB") {
        Ok(given) => PathBuf::from(given),
        Err(_) => root.join("target").join("staticlib"),
    };
    let archive = folder.join("libharness.a");
    if archive.is_file() {
        println!("cargo:rerun-if-changed={}", archive.display());
    } else {
        println!("cargo:warning=no {}: make it with host/archive, or give its folder in HARNESS_LIB", archive.display());
    }
    println!("cargo:rustc-link-search=native={}", folder.display());
    println!("cargo:rustc-link-lib=static=harness");

    let original = match env::var("ORIGINAL") {
        Ok(given) => PathBuf::from(given),
        Err(_) => root.join("../shared/docs/src"),
    };
    let found = fs::canonicalize(original.join("cpu.rs")).ok().filter(|p| p.is_file());
    let out = Path::new(&env::var("OUT_DIR").unwrap()).join("original.rs");
    match found {
        Some(path) => {
            println!("cargo:rerun-if-changed={}", path.display());
            println!("cargo:rustc-cfg=original");
            let text = format!("#[allow(dead_code, unused)]\n#[path = {:?}]\nmod cpu;\n", path.display().to_string());
            fs::write(&out, text).unwrap();
        }
        None => {
            println!("cargo:warning=the original's cpu.rs is not in {}: give its original in ORIGINAL", original.display());
            fs::write(&out, "").unwrap();
        }
    }
}
