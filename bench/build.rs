//! Links the static libraries that LIB and SUM_LIB name, and src/before.rs, compiled by itself: so both sums are called alike.

use std::env::var;
use std::process::Command;

fn main() {
    let before = format!("{}/before.o", var("OUT_DIR").unwrap());
    let done = Command::new(var("RUSTC").unwrap())
        .args(["--edition=2021", "--crate-type=lib", "--emit=obj", "-Copt-level=3", "src/before.rs", "-o", &before])
        .status();
    assert!(done.is_ok_and(|status| status.success()), "src/before.rs");
    println!("cargo:rerun-if-changed=src/before.rs");
    link(&var("LIB").expect("LIB names the static library"));
    link(&before);
    link(&var("SUM_LIB").expect("SUM_LIB names that of the sum alone"));
    println!("cargo:rerun-if-env-changed=LIB");
    println!("cargo:rerun-if-env-changed=SUM_LIB");
}

fn link(file: &str) {
    println!("cargo:rerun-if-changed={file}");
    println!("cargo:rustc-link-arg-bins={file}");
}
