// SPDX-License-Identifier: MIT OR Apache-2.0
//! Links the proved library: the file that GJ_LIBRARY names, or else the project's own. The library is for x86-64 Linux alone; for
//! anything else nothing is linked, and src/lib.rs says so where it matters.
use std::path::{Path, PathBuf};
use std::{env, fs, process};

/// Where the project's scripts leave the library, from the project's root.
const OURS: &str = "target/staticlib/libgauss_jackson.a";

fn is_supported() -> bool {
    let is = |name: &str, wanted: &str| env::var(name).as_deref() == Ok(wanted);
    is("CARGO_CFG_TARGET_ARCH", "x86_64") && is("CARGO_CFG_TARGET_OS", "linux")
}

fn fail(said: &str) -> ! {
    eprintln!("{said}");
    process::exit(1)
}

/// The library's file; a relative path in GJ_LIBRARY counts from the project's root, as in the project's scripts.
fn library() -> PathBuf {
    let root = Path::new(&env::var_os("CARGO_MANIFEST_DIR").unwrap()).join("../..");
    let named = env::var_os("GJ_LIBRARY").filter(|path| !path.is_empty());
    let library = root.join(named.as_deref().unwrap_or_else(|| OURS.as_ref()));
    println!("cargo:rerun-if-changed={}", library.display());
    if library.is_file() {
        return library;
    }
    match named {
        Some(path) => fail(&format!("GJ_LIBRARY names no file: {}", Path::new(&path).display())),
        None => fail("the proved library is not built yet: run `examples/run` in the project's root, or name the library's file in GJ_LIBRARY"),
    }
}

fn main() {
    println!("cargo:rerun-if-env-changed=GJ_LIBRARY");
    if !is_supported() {
        return;
    }
    // Copied under one name, whatever its own, so that the linker finds it by name alone.
    let (library, folder) = (library(), PathBuf::from(env::var_os("OUT_DIR").unwrap()));
    let copied = fs::read(&library).and_then(|bytes| fs::write(folder.join("libgauss_jackson.a"), bytes));
    if let Err(why) = copied {
        fail(&format!("the proved library {} cannot be copied: {why}", library.display()));
    }
    println!("cargo:rustc-link-search=native={}", folder.display());
    println!("cargo:rustc-link-lib=static=gauss_jackson");
}
