//! Compiles the files of reference/ with gcc and links them and the static library. The library is looked for in
//! target/staticlib of the repository, or in the folder that KLAVERDOMP_LIB_DIR names.

use std::env;
use std::path::{Path, PathBuf};
use std::process::Command;

fn run(command: &mut Command) {
    let status = command.status().unwrap_or_else(|error| panic!("{command:?}: {error}"));
    assert!(status.success(), "{command:?}: {status}");
}

fn compile_reference(repository: &Path, out: &Path) {
    let source = repository.join("reference");
    let archive = out.join("libklaverdomp_reference.a");
    let _ = std::fs::remove_file(&archive);
    for name in ["reference", "session_file"] {
        let object = out.join(name).with_extension("o");
        run(Command::new("gcc")
            .args(["-std=c11", "-O3", "-fPIC", "-ffp-contract=off", "-msse2", "-mfpmath=sse", "-Wall", "-Wextra", "-Werror", "-c"])
            .arg(source.join(name).with_extension("c"))
            .arg("-o")
            .arg(&object));
        run(Command::new("ar").arg("rcs").arg(&archive).arg(&object));
    }
    println!("cargo:rerun-if-changed={}", source.display());
    println!("cargo:rustc-link-search=native={}", out.display());
    println!("cargo:rustc-link-lib=static=klaverdomp_reference");
}

fn link_library(repository: &Path) {
    println!("cargo:rerun-if-env-changed=KLAVERDOMP_LIB_DIR");
    let folder = env::var_os("KLAVERDOMP_LIB_DIR").map(PathBuf::from).unwrap_or_else(|| repository.join("target/staticlib"));
    let library = folder.join("libklaverdomp.a");
    assert!(library.is_file(), "no static library at {}: make it with tools/static_library.sh", library.display());
    println!("cargo:rerun-if-changed={}", library.display());
    println!("cargo:rustc-link-search=native={}", folder.display());
    println!("cargo:rustc-link-lib=static=klaverdomp");
}

fn main() {
    let manifest = PathBuf::from(env::var_os("CARGO_MANIFEST_DIR").expect("cargo sets it"));
    let repository = manifest.join("../..").canonicalize().expect("the repository");
    compile_reference(&repository, &PathBuf::from(env::var_os("OUT_DIR").expect("cargo sets it")));
    link_library(&repository);
    println!("cargo:rerun-if-changed=build.rs");
}
