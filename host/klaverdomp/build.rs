// Links libklaverdomp.a, which tools/static_library.sh writes to target/staticlib at the repository's root.
// KLAVERDOMP_LIB_DIR names another folder that holds it.

use std::env;
use std::path::PathBuf;

fn main() {
    println!("cargo::rerun-if-env-changed=KLAVERDOMP_LIB_DIR");
    let folder = match env::var_os("KLAVERDOMP_LIB_DIR") {
        Some(folder) => PathBuf::from(folder),
        None => PathBuf::from(env!("CARGO_MANIFEST_DIR")).join("../../target/staticlib"),
    };
    let library = folder.join("libklaverdomp.a");
    println!("cargo::rerun-if-changed={}", library.display());
    if !library.is_file() {
        println!(
            "cargo::error={} is missing: run tools/static_library.sh at the repository's root, or set KLAVERDOMP_LIB_DIR to the folder that holds it",
            library.display()
        );
        return;
    }
    println!("cargo::rustc-link-search=native={}", folder.display());
    println!("cargo::rustc-link-lib=static=klaverdomp");
}
