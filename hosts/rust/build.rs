//! Links the proved library: target/staticlib of the repository, or the folder that HULLATHAN_LIB names.

use std::env;
use std::path::PathBuf;
use std::process::exit;

fn stop(message: &str) -> ! {
    eprintln!("hullathan: {message}");
    exit(1)
}

fn main() {
    println!("cargo::rerun-if-changed=build.rs");
    println!("cargo::rerun-if-env-changed=HULLATHAN_LIB");
    let cfg = |name| env::var(name).unwrap_or_default();
    if cfg("CARGO_CFG_TARGET_ARCH") != "x86_64" || cfg("CARGO_CFG_TARGET_OS") != "linux" {
        stop("the library's archive is for x86-64 Linux");
    }
    let here = PathBuf::from(env::var_os("CARGO_MANIFEST_DIR").expect("cargo sets it"));
    let folder = env::var_os("HULLATHAN_LIB")
        .map(PathBuf::from)
        .unwrap_or_else(|| here.join("../../target/staticlib"));
    let archive = folder.join("libhullathan.a");
    println!("cargo::rerun-if-changed={}", archive.display());
    if !archive.is_file() {
        stop(&format!(
            "{} is not there. `tools/archive hullathan`, in the repository's root, makes it; \
             HULLATHAN_LIB names another folder",
            archive.display()
        ));
    }
    println!("cargo::rustc-link-search=native={}", folder.display());
    println!("cargo::rustc-link-lib=static=hullathan");
}
