//! Finds libconiks.a in the folder CONIKS_LIB_DIR, or in embed/out, and libsodium for the feature `client`.

use std::env;
use std::path::{Path, PathBuf};
use std::process::Command;

fn main() {
    let here = env::var("CARGO_MANIFEST_DIR").expect("cargo sets it");
    let folder = env::var_os("CONIKS_LIB_DIR").map_or_else(|| Path::new(&here).join("../out"), PathBuf::from);
    let archive = folder.join("libconiks.a");
    assert!(archive.exists(), "{} is missing: run embed/build, or set CONIKS_LIB_DIR", archive.display());
    println!("cargo:rerun-if-env-changed=CONIKS_LIB_DIR");
    println!("cargo:rerun-if-changed={}", archive.display());
    println!("cargo:rustc-link-search=native={}", folder.display());
    println!("cargo:rustc-link-lib=static=coniks");
    if env::var_os("CARGO_FEATURE_CLIENT").is_some() {
        link_sodium();
    }
}

/// Links libsodium, where pkg-config or the C compiler finds it.
fn link_sodium() {
    println!("cargo:rerun-if-env-changed=PKG_CONFIG_PATH");
    if let Some(words) = printed("pkg-config", &["--libs-only-L", "libsodium"]) {
        for folder in words.split_whitespace().filter_map(|it| it.strip_prefix("-L")) {
            println!("cargo:rustc-link-search=native={folder}");
        }
    } else {
        let file = printed("cc", &["-print-file-name=libsodium.so"]).unwrap_or_default();
        assert!(
            Path::new(file.trim()).is_absolute(),
            "libsodium is missing, which the feature `client` needs: install libsodium-dev"
        );
    }
    println!("cargo:rustc-link-lib=sodium");
}

/// What a program prints, None if it is not there or fails.
fn printed(program: &str, words: &[&str]) -> Option<String> {
    let ran = Command::new(program).args(words).output().ok().filter(|it| it.status.success())?;
    String::from_utf8(ran.stdout).ok()
}
