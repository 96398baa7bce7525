//! Links libmpl.a, from ../target/staticlib or from the directory in MPL_LIB_DIR.
//! The benchmark takes a copy in which every function begins at a multiple of 64
//! bytes, as those of the second implementation do (.cargo/config.toml): else where
//! the linker happens to put a function moves a row by up to a tenth.

use std::{env, path::Path, path::PathBuf, process::Command};

/// The archive with its functions aligned, or none where objcopy cannot do it.
fn aligned(archive: &Path) -> Option<PathBuf> {
    let copy = PathBuf::from(env::var_os("OUT_DIR")?).join("libmpl_aligned.a");
    let status = Command::new("objcopy")
        .args(["--set-section-alignment", ".text.*=64"])
        .args([archive, &copy])
        .status();
    status.is_ok_and(|status| status.success()).then_some(copy)
}

fn main() {
    let manifest = PathBuf::from(env::var_os("CARGO_MANIFEST_DIR").expect("set by cargo"));
    let directory = match env::var_os("MPL_LIB_DIR") {
        Some(directory) => manifest.join(directory),
        None => manifest.join("../target/staticlib"),
    };
    let archive = directory.join("libmpl.a");
    println!("cargo:rerun-if-env-changed=MPL_LIB_DIR");
    println!("cargo:rerun-if-changed={}", archive.display());
    // Only the programs take the archive: `rustc-link-lib` would go to the crate
    // itself, and then its own tests could not be built without the library.
    println!("cargo:rustc-link-arg-bin=compare={}", archive.display());
    let timed = if archive.exists() {
        aligned(&archive)
    } else {
        None
    };
    if archive.exists() && timed.is_none() {
        println!("cargo:warning=objcopy cannot align the library's functions: rows move with their places");
    }
    println!(
        "cargo:rustc-link-arg-bin=bench={}",
        timed.unwrap_or(archive).display()
    );
}
