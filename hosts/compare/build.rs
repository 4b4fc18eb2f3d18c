//! Finds the engine's static library.
//!
//! FANZSOREB_LIB names its directory (a relative one is taken from this
//! package's directory), FANZSOREB_NAME the library: `fanzsoreb` is libfanzsoreb.a.
//! Without a library the program still builds, but refuses to run.

use std::env;
use std::path::PathBuf;

fn main() {
    println!("cargo:rustc-check-cfg=cfg(engine_linked)");
    println!("cargo:rerun-if-changed=build.rs");
    println!("cargo:rerun-if-env-changed=FANZSOREB_LIB");
    println!("cargo:rerun-if-env-changed=FANZSOREB_NAME");
    if env::var_os("CARGO_FEATURE_SELFTEST").is_some() {
        return;
    }
    let asked = env::var("FANZSOREB_LIB").ok();
    let directory = asked.clone().unwrap_or("../../build".to_string());
    let name = env::var("FANZSOREB_NAME").unwrap_or("fanzsoreb".to_string());
    let package = PathBuf::from(env::var("CARGO_MANIFEST_DIR").expect("set by cargo"));
    let directory = package.join(directory);
    let archive = directory.join(format!("lib{name}.a"));
    println!("cargo:rerun-if-changed={}", archive.display());
    if !archive.is_file() {
        if asked.is_some() {
            panic!("no engine at {}", archive.display());
        }
        println!("cargo:warning=no engine at {}: built without one", archive.display());
        return;
    }
    println!("cargo:rustc-cfg=engine_linked");
    println!("cargo:rustc-link-search=native={}", directory.display());
    // The library that src/engine.rs calls fanzsoreb is this one.
    println!("cargo:rustc-link-lib=static=fanzsoreb:{name}");
    // An engine in Rust without std brings a panic handler of its own.
    if env::var("CARGO_CFG_TARGET_OS").as_deref() == Ok("linux") {
        println!("cargo:rustc-link-arg=-Wl,--allow-multiple-definition");
    }
}
