//! Hands the linker limit.c as `run` has compiled it.
use std::env;
use std::path::Path;

fn main() {
    let here = env::var("CARGO_MANIFEST_DIR").expect("cargo names the crate's folder");
    let object = Path::new(&here).join("../../oracle/target/limit.o");
    println!("cargo::rerun-if-changed={}", object.display());
    if object.is_file() {
        println!("cargo::rustc-link-arg-bins={}", object.display());
    } else {
        println!(
            "cargo::error={} is missing: bench/operators/run compiles bench/operators/limit.c to it",
            object.display()
        );
    }
}
