//! Links the static library of the proved crate `wallmirror`.

use std::env;
use std::path::{Path, PathBuf};

const ARCHIVE: &str = "libwallmirror.a";
const OVERRIDE: &str = "WALLMIRROR_LIB_DIR";

fn main() {
    println!("cargo:rerun-if-env-changed={OVERRIDE}");
    let arch = env::var("CARGO_CFG_TARGET_ARCH").unwrap_or_default();
    if arch != "x86_64" {
        fail(&format!("{ARCHIVE} is made for x86-64 and cannot be linked for {arch}"));
    }
    let folder = match env::var_os(OVERRIDE) {
        Some(folder) => PathBuf::from(folder),
        None => repository_root().join("crates/wallmirror/out"),
    };
    // Cargo runs this in the folder of the crate, so a relative path would not mean what its writer saw.
    if !folder.is_absolute() {
        fail(&format!("{OVERRIDE} is to be an absolute path, not '{}'", folder.display()));
    }
    let archive = folder.join(ARCHIVE);
    println!("cargo:rerun-if-changed={}", archive.display());
    if !archive.is_file() {
        fail(&format!(
            "there is no {}: run 'rt lib' in crates/wallmirror of the repository, or set {OVERRIDE} to the folder that has it",
            archive.display()
        ));
    }
    println!("cargo:rustc-link-search=native={}", folder.display());
    println!("cargo:rustc-link-lib=static=wallmirror");
}

fn repository_root() -> PathBuf {
    let here = env::var_os("CARGO_MANIFEST_DIR").expect("cargo sets CARGO_MANIFEST_DIR");
    Path::new(&here)
        .ancestors()
        .nth(2)
        .expect("this crate stands in rust/wallmirror of the repository")
        .to_path_buf()
}

fn fail(message: &str) -> ! {
    eprintln!("wallmirror: {message}");
    std::process::exit(1);
}
