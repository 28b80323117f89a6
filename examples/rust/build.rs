//! Tells the linker where the installed library lies, which pkg-config knows (PKG_CONFIG_PATH, if it is in a folder of its own).

use std::process::Command;

/// The folder of the library, or what is wrong.
fn folder() -> Result<String, String> {
    let asked = Command::new("pkg-config").args(["--variable=libdir", "witcall"]).output();
    let output = asked.map_err(|error| format!("pkg-config: {error}"))?;
    if !output.status.success() {
        return Err(String::from_utf8_lossy(&output.stderr).into_owned());
    }
    Ok(String::from_utf8_lossy(&output.stdout).trim().to_owned())
}

fn main() {
    println!("cargo:rerun-if-env-changed=PKG_CONFIG_PATH");
    match folder() {
        Ok(folder) => {
            println!("cargo:rustc-link-search=native={folder}");
            println!("cargo:rerun-if-changed={folder}/libwitcall.a");
            println!("cargo:rustc-link-lib=static=witcall");
        }
        Err(why) => panic!("the library isn't installed: {why}"),
    }
}
