//! Finds libcottontuff: in COTTONTUFF_LIB_DIR, else by pkg-config, else under target/staticlib of the checkout that this crate stands in.
use std::path::Path;
use std::process::Command;

fn by_pkg_config() -> Option<String> {
    let out = Command::new("pkg-config").args(["--variable=prefix", "cottontuff"]).output().ok()?;
    let prefix = String::from_utf8(out.stdout).ok()?;
    (out.status.success() && !prefix.trim().is_empty()).then(|| format!("{}/lib", prefix.trim()))
}

fn main() {
    println!("cargo:rerun-if-env-changed=COTTONTUFF_LIB_DIR");
    println!("cargo:rerun-if-env-changed=PKG_CONFIG_PATH");
    let beside = concat!(env!("CARGO_MANIFEST_DIR"), "/../target/staticlib");
    let folder = std::env::var("COTTONTUFF_LIB_DIR").ok().or_else(by_pkg_config).unwrap_or_else(|| beside.to_string());
    if !Path::new(&folder).join("libcottontuff.a").exists() {
        panic!("libcottontuff.a is not in {folder}: run `make` in the checkout, install the library, or set COTTONTUFF_LIB_DIR");
    }
    println!("cargo:rustc-link-search=native={folder}");
}
