//! The commands and the program of `README.md` run, in their order and in a folder of their own.

use std::os::unix::fs::symlink;
use std::path::{Path, PathBuf};
use std::process::Command;
use std::{env, fs, process};

const PAGE: &str = include_str!("../README.md");

/// The blocks of a language.
fn blocks(language: &str) -> Vec<&'static str> {
    let block = |part: &'static str| part.strip_prefix(language)?.strip_prefix('\n');
    PAGE.split("```").skip(1).step_by(2).filter_map(block).collect()
}

/// Runs commands in a folder that is the home of their user, and returns what they print.
fn run(folder: &Path, commands: &str) -> String {
    let home = PathBuf::from(env::var("HOME").unwrap_or_default());
    let folder_of = |name: &str, own: &str| env::var(name).map_or(home.join(own), PathBuf::from);
    let output = Command::new("sh")
        .args(["-eux", "-c", commands])
        .current_dir(folder)
        .env("CARGO_HOME", folder_of("CARGO_HOME", ".cargo"))
        .env("RUSTUP_HOME", folder_of("RUSTUP_HOME", ".rustup"))
        .env("CARGO_TARGET_DIR", folder.join("target"))
        .env("CARGO_NET_OFFLINE", "true")
        .env("HOME", folder)
        .env_remove("WITCALL_LIB_DIR")
        .env_remove("PKG_CONFIG_PATH")
        .output()
        .unwrap();
    let told = String::from_utf8_lossy(&output.stderr);
    assert!(output.status.success(), "{commands}\n{told}\nneeded: apt-get install -y binutils gcc pkg-config");
    String::from_utf8(output.stdout).unwrap()
}

#[test]
fn the_page_runs() {
    let ([commands], [manifest], [program]) = (&blocks("sh")[..], &blocks("toml")[..], &blocks("rust")[..]) else {
        panic!("another block");
    };
    assert_eq!(PAGE.matches("```").count(), 6);
    assert!(PAGE.contains("`cargo new host`") && PAGE.contains("`cargo run`"));
    let folder = env::temp_dir().join(format!("witcall-readme-{}", process::id()));
    fs::create_dir(&folder).unwrap();
    symlink(Path::new(env!("CARGO_MANIFEST_DIR")).join("../.."), folder.join("witcall")).unwrap();
    run(&folder, &format!("{commands}\ncargo new host"));

    let host = folder.join("host");
    let made = fs::read_to_string(host.join("Cargo.toml")).unwrap();
    assert!(made.contains("[dependencies]\n"));
    fs::write(host.join("Cargo.toml"), made.replace("[dependencies]\n", manifest)).unwrap();
    fs::write(host.join("src/main.rs"), program).unwrap();
    run(&folder, &format!("{commands}\ncd host && cargo run"));
    fs::remove_dir_all(&folder).unwrap();
}
