// Compiles the plain C programs that `bench` measures beside the library: that of the same rounding order, reference/reference.c, and
// that of saved sessions, reference/session_file.c. Without those files the tool builds too, and `bench` measures the library alone.
// KLAVERDOMP_REFERENCE_DIR names another folder that holds them, and CC another compiler than gcc.

use std::env;
use std::path::PathBuf;
use std::process::Command;

fn main() {
    println!("cargo::rustc-check-cfg=cfg(reference)");
    println!("cargo::rerun-if-env-changed=CC");
    println!("cargo::rerun-if-env-changed=KLAVERDOMP_REFERENCE_DIR");
    let folder = match env::var_os("KLAVERDOMP_REFERENCE_DIR") {
        Some(folder) => PathBuf::from(folder),
        None => PathBuf::from(env!("CARGO_MANIFEST_DIR")).join("../../reference"),
    };
    for name in ["reference.c", "reference.h", "session_file.c", "session_file.h", "tables.h"] {
        println!("cargo::rerun-if-changed={}", folder.join(name).display());
    }
    let sources = ["reference", "session_file"].map(|name| (folder.join(name).with_extension("c"), name));
    if sources.iter().any(|(source, _)| !source.is_file()) {
        return;
    }
    let out = PathBuf::from(env::var_os("OUT_DIR").expect("cargo sets OUT_DIR"));
    let library = out.join("libreference.a");
    let compiler = env::var_os("CC").unwrap_or_else(|| "gcc".into());
    let flags = ["-std=c11", "-O3", "-ffp-contract=off", "-march=x86-64", "-c"];
    let built = sources.iter().all(|(source, name)| {
        let object = out.join(name).with_extension("o");
        run(Command::new(&compiler).args(flags).arg(source).arg("-o").arg(&object))
            && run(Command::new("ar").arg("rcs").arg(&library).arg(&object))
    });
    if built {
        println!("cargo::rustc-cfg=reference");
        println!("cargo::rustc-link-search=native={}", out.display());
        println!("cargo::rustc-link-lib=static=reference");
    }
}

/// Whether the command succeeds; if not, the build fails and says why.
fn run(command: &mut Command) -> bool {
    match command.status() {
        Ok(status) if status.success() => true,
        Ok(status) => {
            println!("cargo::error={command:?} ended with {status}");
            false
        }
        Err(error) => {
            println!("cargo::error={command:?} could not be started: {error}");
            false
        }
    }
}
