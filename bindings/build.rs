//! Decides how the package reaches the library: linked on x86-64 Linux, elsewhere through a driver
//! process (README.md, "Other processors").

use std::env;
use std::path::PathBuf;

fn main() {
    println!("cargo::rustc-check-cfg=cfg(driven)");
    println!("cargo::rerun-if-changed=build.rs");
    println!("cargo::rerun-if-env-changed=KAVIZHURAN_DRIVER");
    println!("cargo::rerun-if-env-changed=KAVIZHURAN_LIB_DIR");
    let native = target("ARCH") == "x86_64" && target("OS") == "linux";
    let driver = env::var_os("KAVIZHURAN_DRIVER").unwrap_or_default();
    if native && driver.is_empty() {
        link();
    } else {
        println!("cargo::rustc-cfg=driven");
    }
}

/// What the package is compiled for, not what it is compiled on.
fn target(what: &str) -> String {
    env::var(format!("CARGO_CFG_TARGET_{what}")).unwrap_or_default()
}

fn link() {
    let package = PathBuf::from(env!("CARGO_MANIFEST_DIR"));
    let directory = match env::var_os("KAVIZHURAN_LIB_DIR") {
        Some(named) => env::current_dir().unwrap_or_default().join(named),
        None => package.join("../target/staticlib"),
    };
    let archive = directory.join("libabi.a");
    if !archive.is_file() {
        panic!(
            "there is no {}: make it with `tools/library` at the top of the repository, or \
             set KAVIZHURAN_LIB_DIR to the folder that has libabi.a",
            archive.display()
        );
    }
    println!("cargo::rerun-if-changed={}", archive.display());
    println!("cargo::rustc-link-search=native={}", directory.display());
    println!("cargo::rustc-link-lib=static=abi");
}
