// SPDX-License-Identifier: MIT
//! Finds libmsat: in the folder that `MSAT_LIB_DIR` names, or by pkg-config. With `MSAT_STATIC=1` the archive is linked, and
//! otherwise the shared object.

use std::env;
use std::process::{Command, exit};

fn main() {
    for name in ["MSAT_LIB_DIR", "MSAT_STATIC", "PKG_CONFIG", "PKG_CONFIG_PATH"] {
        println!("cargo::rerun-if-env-changed={name}");
    }
    if env::var_os("DOCS_RS").is_some() {
        return;
    }
    let folder = env::var("MSAT_LIB_DIR").unwrap_or_else(|_| library_folder());
    println!("cargo::rustc-link-search=native={folder}");
    let is_static = env::var("MSAT_STATIC").is_ok_and(|it| it == "1");
    println!("cargo::rustc-link-lib={}=msat", if is_static { "static" } else { "dylib" });
    println!("cargo::metadata=lib-dir={folder}");
}

/// The folder `libdir` of pkg-config's `msat`, of the first major version.
fn library_folder() -> String {
    if !asked(&["--exists", "--print-errors", "msat >= 1.0 msat < 2.0"]).is_empty() {
        stop("it isn't of version 1");
    }
    asked(&["--variable=libdir", "msat"])
}

/// What pkg-config answers.
fn asked(words: &[&str]) -> String {
    let command = env::var("PKG_CONFIG").unwrap_or_else(|_| "pkg-config".to_owned());
    match Command::new(command).args(words).output() {
        Ok(said) if said.status.success() => String::from_utf8_lossy(&said.stdout).trim().to_owned(),
        Ok(said) => stop(&String::from_utf8_lossy(&said.stderr)),
        Err(error) => stop(&error.to_string()),
    }
}

fn stop(why: &str) -> ! {
    println!(
        "cargo::error=libmsat isn't found by pkg-config ({}): PKG_CONFIG_PATH or MSAT_LIB_DIR says where it is",
        why.trim().replace('\n', " ")
    );
    exit(1)
}
