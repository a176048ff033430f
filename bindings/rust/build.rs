//! Finds the archive that is linked: `TEST_SELECT_LIB` names it, or else it is built by `tools/build`.
//! `RATTLE_KIT` names the folder of the toolchain, whose `c` has what the archive wants of the C library.

use std::env;
use std::path::{Path, PathBuf};
use std::process::Command;

fn main() {
    for name in ["TEST_SELECT_LIB", "RATTLE_KIT"] {
        println!("cargo::rerun-if-env-changed={name}");
    }
    let archive = archive();
    println!("cargo::rerun-if-changed={}", archive.display());
    println!("cargo::rustc-link-search=native={}", folder_of(&archive).display());
    println!("cargo::rustc-link-search=native={}", kit().join("c").display());
    println!("cargo::rustc-link-lib=static=test_select_c");
    println!("cargo::rustc-link-lib=static=libc_c");
}

/// The path of `libtest_select_c.a`.
fn archive() -> PathBuf {
    if let Some(path) = env::var_os("TEST_SELECT_LIB") {
        return PathBuf::from(path);
    }
    let manifest = PathBuf::from(env::var_os("CARGO_MANIFEST_DIR").expect("Cargo names the folder"));
    let top = folder_of(folder_of(&manifest)).to_path_buf();
    let built = top.join("crates/test_select_c/out/libtest_select_c.a");
    if !built.exists() {
        let ended = Command::new(top.join("tools/build")).arg("test_select_c").status();
        assert!(ended.is_ok_and(|status| status.success()), "tools/build test_select_c fails");
    }
    built
}

/// The toolchain's folder: that of the command `rt`, unless it is named.
fn kit() -> PathBuf {
    if let Some(path) = env::var_os("RATTLE_KIT") {
        return PathBuf::from(path);
    }
    let paths = env::var_os("PATH").unwrap_or_default();
    let command = env::split_paths(&paths).map(|folder| folder.join("rt")).find(|path| path.is_file());
    let command = command.expect("no `rt` on PATH: set RATTLE_KIT to the folder of the toolchain");
    let real = command.canonicalize().expect("rt has a path");
    folder_of(folder_of(&real)).to_path_buf()
}

fn folder_of(path: &Path) -> &Path {
    path.parent().expect("a path in a folder")
}
