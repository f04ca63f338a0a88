//! Links the archives that the file bindings/archives names. `DOLZHEV_LIBS` is their folder; without it, each lies where
//! `rt lib` puts it, in the folder `out` of its crate.
use std::env;
use std::path::PathBuf;

const ARCHIVES: &str = include_str!("../../archives");

fn folder(name: &str) -> PathBuf {
    match env::var_os("DOLZHEV_LIBS") {
        Some(folder) => PathBuf::from(folder),
        None => PathBuf::from(env!("CARGO_MANIFEST_DIR")).join(format!("../../../crates/{name}/out")),
    }
}

fn main() {
    println!("cargo::rerun-if-env-changed=DOLZHEV_LIBS");
    for name in ARCHIVES.split_whitespace() {
        let folder = folder(name);
        println!("cargo::rustc-link-search=native={}", folder.display());
        let archive = folder.join(format!("lib{name}.a"));
        if !archive.is_file() {
            println!("cargo::error={} is missing: bindings/run builds it", archive.display());
        }
        println!("cargo::rerun-if-changed={}", archive.display());
        println!("cargo::rustc-link-lib=static={name}");
    }
}
