//! Finds libmodem.a: in the folder that TETRA_MODEM_LIB names, in the repository's own target folder, or where pkg-config
//! says that it is installed.

use std::path::PathBuf;
use std::process::{exit, Command};
use std::{env, fs};

fn main() {
    println!("cargo:rerun-if-changed=build.rs");
    println!("cargo:rerun-if-env-changed=TETRA_MODEM_LIB");
    println!("cargo:rerun-if-env-changed=PKG_CONFIG_PATH");
    let Some(folder) = named().or_else(built).or_else(installed) else {
        eprintln!("tetra_modem: no libmodem.a: run `make build` or `make install`, or let TETRA_MODEM_LIB name its folder");
        exit(1);
    };
    println!(
        "cargo:rerun-if-changed={}",
        folder.join("libmodem.a").display()
    );
    println!("cargo:rustc-link-search=native={}", folder.display());
    println!("cargo:rustc-link-lib=static=modem");
}

fn named() -> Option<PathBuf> {
    env::var_os("TETRA_MODEM_LIB").map(PathBuf::from)
}

fn built() -> Option<PathBuf> {
    let crate_folder = PathBuf::from(env::var_os("CARGO_MANIFEST_DIR")?);
    let folder = fs::canonicalize(crate_folder.join("../../target/staticlib")).ok()?;
    folder.join("libmodem.a").exists().then_some(folder)
}

fn installed() -> Option<PathBuf> {
    let asked = Command::new("pkg-config")
        .args(["--variable=libdir", "tetra_modem"])
        .output()
        .ok()?;
    let folder = String::from_utf8(asked.stdout).ok()?;
    asked.status.success().then(|| PathBuf::from(folder.trim()))
}
