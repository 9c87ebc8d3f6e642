//! Links the proved library, libxport.a, and says plainly what to do where it is not there.
use std::path::PathBuf;
use std::{env, process};

fn fail(words: &str) -> ! {
    eprintln!("giunchemis: {}", words);
    process::exit(1);
}

fn main() {
    println!("cargo:rerun-if-changed=build.rs");
    println!("cargo:rerun-if-env-changed=GIUNCHEMIS_LIB_DIR");
    println!("cargo:rerun-if-env-changed=GIUNCHEMIS_ORIGINAL");

    let arch = env::var("CARGO_CFG_TARGET_ARCH").unwrap_or_default();
    if arch != "x86_64" {
        fail(&format!(
            "the proved library is for x86-64, and this build is for {}. On Arm, build for x86-64 and run under an \
             emulator: tools/foreign has the recipe.",
            arch
        ));
    }

    let beside = PathBuf::from(env::var_os("CARGO_MANIFEST_DIR").unwrap_or_default()).join("../target/staticlib");
    let dir = env::var_os("GIUNCHEMIS_LIB_DIR").map_or(beside, PathBuf::from);
    let archive = dir.join("libxport.a");
    if !archive.is_file() {
        fail(&format!(
            "{} is not there. Make it with `tools/archive` at the repository's root, or set GIUNCHEMIS_LIB_DIR \
             to the folder that holds libxport.a.",
            archive.display()
        ));
    }
    println!("cargo:rerun-if-changed={}", archive.display());
    println!("cargo:rustc-link-search=native={}", dir.display());
    println!("cargo:rustc-link-lib=static=xport");

    // for the tests that compare with the original alone: the folder that holds librtcp_types.rlib
    if let Some(original) = env::var_os("GIUNCHEMIS_ORIGINAL") {
        println!("cargo:rustc-link-search=crate={}", PathBuf::from(original).display());
    } else if env::var_os("CARGO_FEATURE_ORIGINAL").is_some() {
        fail(
            "the tests of the feature `original` want the folder of librtcp_types.rlib in GIUNCHEMIS_ORIGINAL: \
             tools/foreign builds it and runs them.",
        );
    }
}
