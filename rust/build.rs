//! Finds the proved archive and has it linked, or says in one line what is missing.

use std::path::PathBuf;
use std::{env, process};

fn stop(why: &str) -> ! {
    eprintln!("{why}");
    process::exit(1);
}

fn main() {
    println!("cargo:rerun-if-env-changed=RIPEMD_LIB_DIR");
    if env::var("CARGO_CFG_TARGET_ARCH").as_deref() != Ok("x86_64") {
        stop("libripemd_c.a is x86-64 code: build for x86_64-unknown-linux-gnu, as the repository's tests/rust does");
    }
    // Cargo runs this in the crate's folder, so a relative folder counts from there.
    let folder =
        env::var_os("RIPEMD_LIB_DIR").map_or_else(|| "../target/staticlib".into(), PathBuf::from);
    let Ok(archive) = folder.join("libripemd_c.a").canonicalize() else {
        stop(&format!(
            "no libripemd_c.a in {}: run `tests/library` in the repository's root, or set RIPEMD_LIB_DIR",
            folder.display()
        ));
    };
    let folder = archive.parent().expect("a file has a folder");
    println!("cargo:rerun-if-changed={}", archive.display());
    println!("cargo:rustc-link-search=native={}", folder.display());
    println!("cargo:rustc-link-lib=static=ripemd_c");
}
