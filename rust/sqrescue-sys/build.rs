//! Finds libsqrescue.a or libsqrescue.so: in the folder that SQRESCUE_LIB_DIR names, in lib/ or release/lib/ of the
//! tree that this crate lies in, or where pkg-config finds it.
use std::path::{Path, PathBuf};
use std::process::Command;
use std::{env, process};

/// The folder that pkg-config names.
fn installed() -> Option<PathBuf> {
    let asked = Command::new("pkg-config").args(["--variable=libdir", "sqrescue"]).output().ok()?;
    let folder = String::from_utf8(asked.stdout).ok()?;
    (asked.status.success() && !folder.trim().is_empty()).then(|| PathBuf::from(folder.trim()))
}

/// The folder of the library.
fn found() -> Option<PathBuf> {
    if let Some(named) = env::var_os("SQRESCUE_LIB_DIR") {
        return Some(named.into());
    }
    let top = Path::new(env!("CARGO_MANIFEST_DIR")).join("../..");
    let built = ["lib", "release/lib"].map(|folder| top.join(folder));
    built.into_iter().find(|folder| folder.join("libsqrescue.a").exists()).or_else(installed)
}

fn main() {
    println!("cargo:rerun-if-env-changed=SQRESCUE_LIB_DIR");
    println!("cargo:rerun-if-env-changed=PKG_CONFIG_PATH");
    let Some(folder) = found() else {
        eprintln!("libsqrescue isn't here: install it with ./install, or set SQRESCUE_LIB_DIR to its folder");
        process::exit(1);
    };
    let kind = if folder.join("libsqrescue.a").exists() { "static=" } else { "" };
    println!("cargo:rustc-link-search=native={}", folder.display());
    println!("cargo:rustc-link-lib={kind}sqrescue");
}
