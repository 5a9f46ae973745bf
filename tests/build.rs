//! Links libprobe.a and libperlenhuf.a, from the folder that PERLENHUF_STATICLIB names or from ../target/staticlib.
use std::env;
use std::path::{Path, PathBuf};

fn main() {
    println!("cargo:rerun-if-env-changed=PERLENHUF_STATICLIB");
    let folder = match env::var_os("PERLENHUF_STATICLIB") {
        Some(folder) => PathBuf::from(folder),
        None => PathBuf::from(env::var_os("CARGO_MANIFEST_DIR").unwrap()).join("../target/staticlib"),
    };
    println!("cargo:rustc-link-search=native={}", folder.display());
    link(&folder, "probe");
    link(&folder, "perlenhuf");
}

fn link(folder: &Path, name: &str) {
    let archive = folder.join(format!("lib{name}.a"));
    if !archive.is_file() {
        panic!("{} is not there: run `tools/build {name}` first", archive.display());
    }
    println!("cargo:rerun-if-changed={}", archive.display());
    println!("cargo:rustc-link-lib=static={name}");
}
