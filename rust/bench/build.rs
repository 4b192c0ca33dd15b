//! Compiles the tuned C version with the C compiler that is there.

use std::env;
use std::path::Path;
use std::process::Command;

const SOURCE: &str = "c/tuned.c";
const INCLUDE: &str = "../../include";

fn main() {
    println!("cargo:rerun-if-env-changed=CC");
    for path in ["c", INCLUDE] {
        println!("cargo:rerun-if-changed={path}");
    }
    let compiler = env::var("CC").unwrap_or_else(|_| "cc".to_string());
    let folder = env::var("OUT_DIR").expect("cargo sets OUT_DIR");
    let object = Path::new(&folder).join("tuned.o");
    let status = Command::new(&compiler)
        .args(["-std=c99", "-O3", "-fPIC", "-Wall", "-Wextra", "-Werror", "-I", INCLUDE])
        .args(["-c", SOURCE, "-o"])
        .arg(&object)
        .status();
    match status {
        Ok(status) if status.success() => {}
        Ok(status) => panic!("'{compiler}' could not compile {SOURCE}: {status}"),
        Err(error) => panic!("the C compiler '{compiler}' does not start: {error}; set CC"),
    }
    println!("cargo:rustc-link-arg={}", object.display());
    println!("cargo:rustc-env=TUNED_BY={compiler} -O3");
}
