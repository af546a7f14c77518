// SPDX-License-Identifier: MIT OR Apache-2.0
//! Finds the Rust module, which stays where it is and is compiled unchanged: at GAUSS_JACKSON_RS, or else among the
//! documents beside the project.
use std::{env, fs, path::PathBuf};

fn main() {
    let here = PathBuf::from(env::var("CARGO_MANIFEST_DIR").unwrap());
    let beside = here.join("../../shared/docs/src/src/orbitprop/ode/gauss_jackson.rs");
    let module = env::var("GAUSS_JACKSON_RS").map(PathBuf::from).unwrap_or(beside);
    let module = fs::canonicalize(&module)
        .unwrap_or_else(|e| panic!("the module is not at {} ({e}); say where it is by GAUSS_JACKSON_RS", module.display()));
    let line = format!("#[path = {:?}]\n#[allow(dead_code)]\npub mod gauss_jackson;\n", module);
    fs::write(PathBuf::from(env::var("OUT_DIR").unwrap()).join("module.rs"), line).unwrap();
    println!("cargo:rerun-if-env-changed=GAUSS_JACKSON_RS");
    println!("cargo:rerun-if-changed={}", module.display());
}
