//! Finds the archive of the proved routines, target/staticlib/libpepperscarp.a of the repository, and links it.

use std::env;
use std::path::PathBuf;
use std::process::exit;

fn main() {
    let package = PathBuf::from(env::var_os("CARGO_MANIFEST_DIR").expect("cargo sets it"));
    let folder = package.join("../target/staticlib");
    let archive = folder.join("libpepperscarp.a");
    println!("cargo:rerun-if-changed={}", archive.display());
    println!("cargo:rerun-if-changed=build.rs");
    let target = env::var("TARGET").expect("cargo sets it");
    if !target.starts_with("x86_64-") {
        fail(&format!("the archive is for x86-64, and this build is for {target}"));
    }
    if !archive.exists() {
        fail("target/staticlib/libpepperscarp.a is missing: run tools/archive of the repository");
    }
    println!("cargo:rustc-link-search=native={}", folder.display());
    println!("cargo:rustc-link-lib=static=pepperscarp");
}

fn fail(message: &str) -> ! {
    eprintln!("pepperscarp: {message}");
    exit(1);
}
