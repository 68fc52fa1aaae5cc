//! Links the proved static library. `tests/library` writes it; it is not made here, so that a
//! build never proves by surprise. `GRAINBODKIN_LIB_DIR` names another folder that holds it.
use std::env;
use std::path::{Path, PathBuf};

/// Ends the build with one sentence, in place of a panic's message and a backtrace.
fn refuse(why: &str) -> ! {
    eprintln!("grainbodkin-sys: {why}");
    std::process::exit(1);
}

fn main() {
    println!("cargo:rerun-if-env-changed=GRAINBODKIN_LIB_DIR");
    let target = |part: &str| env::var(format!("CARGO_CFG_TARGET_{part}")).unwrap_or_default();
    let (processor, system) = (target("ARCH"), target("OS"));
    if processor != "x86_64" || system != "linux" {
        refuse(&format!(
            "liblayer.a is made for x86-64 Linux, and this build is for {processor} {system}"
        ));
    }

    let folder = env::var_os("GRAINBODKIN_LIB_DIR").map_or_else(
        || Path::new(env!("CARGO_MANIFEST_DIR")).join("../../target/staticlib"),
        PathBuf::from,
    );
    let library = folder.join("liblayer.a");
    println!("cargo:rerun-if-changed={}", library.display());
    if !library.exists() {
        refuse(&format!(
            "there is no {}: run `tests/library` at the repository's root, or name the \
             library's folder in GRAINBODKIN_LIB_DIR",
            library.display()
        ));
    }
    println!("cargo:rustc-link-search=native={}", folder.display());
    println!("cargo:rustc-link-lib=static=layer");
}
