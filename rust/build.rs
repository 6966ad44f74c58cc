//! Finds the archive of proved calls, libschotterei.a: in the folder that SCHOTTEREI_LIB names, or in ../target/staticlib.

use std::env;
use std::path::PathBuf;
use std::process::exit;

fn main() {
    println!("cargo:rerun-if-env-changed=SCHOTTEREI_LIB");
    if env::var("CARGO_CFG_TARGET_ARCH").as_deref() != Ok("x86_64") {
        fail("libschotterei.a is for x86-64 alone");
    }
    let folder = env::var_os("SCHOTTEREI_LIB").map_or_else(beside, PathBuf::from);
    let archive = folder.join("libschotterei.a");
    println!("cargo:rerun-if-changed={}", archive.display());
    if !archive.is_file() {
        let there = archive.display();
        fail(&format!(
            "there is no {there}: make it by `./schotterei library`, or name its folder in SCHOTTEREI_LIB"
        ));
    }
    println!("cargo:rustc-link-search=native={}", folder.display());
    println!("cargo:rustc-link-lib=static=schotterei");
}

/// Where `./schotterei library` puts it.
fn beside() -> PathBuf {
    let here = env::var_os("CARGO_MANIFEST_DIR").map(PathBuf::from).unwrap_or_default();
    here.join("../target/staticlib")
}

fn fail(why: &str) {
    eprintln!("schotterei: {why}");
    exit(1);
}
