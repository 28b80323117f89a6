//! Tells the linker where the library is: in the folder of `WITCALL_LIB_DIR`, or where pkg-config knows it.
//!
//! The static library is linked if it is there, and otherwise the shared one.

use std::env;
use std::path::Path;
use std::process::{exit, Command};

/// The folder that pkg-config knows.
fn asked() -> Option<String> {
    let output = Command::new("pkg-config").args(["--variable=libdir", "witcall"]).output().ok()?;
    let folder = String::from_utf8_lossy(&output.stdout).trim().to_owned();
    output.status.success().then_some(folder)
}

fn main() {
    for name in ["WITCALL_LIB_DIR", "PKG_CONFIG_PATH"] {
        println!("cargo:rerun-if-env-changed={name}");
    }
    let Some(folder) = env::var("WITCALL_LIB_DIR").ok().or_else(asked) else {
        eprintln!("witcall's library is not found: tools/install.sh installs it,");
        eprintln!("and PKG_CONFIG_PATH or WITCALL_LIB_DIR says where it is");
        exit(1);
    };
    let archive = Path::new(&folder).join("libwitcall.a");
    let kind = if archive.exists() { "static" } else { "dylib" };
    println!("cargo:rerun-if-changed={}", archive.display());
    println!("cargo:rustc-link-search=native={folder}");
    println!("cargo:rustc-link-lib={kind}=witcall");
}
