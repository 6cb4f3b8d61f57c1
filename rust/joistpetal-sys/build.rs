//! Finds the archive of the proved library, or has it proved and built, and hands it to the linker.
use std::env;
use std::path::{Path, PathBuf};
use std::process::{Command, exit};

fn main() {
    println!("cargo::rerun-if-env-changed=JOISTPETAL_LIB");
    let machine = env::var("CARGO_CFG_TARGET_ARCH").unwrap_or_default();
    let root = Path::new(&env::var("CARGO_MANIFEST_DIR").expect("cargo names the crate's folder"))
        .join("../..");
    let folder = match env::var("JOISTPETAL_LIB") {
        Ok(told) => root.join("rust/joistpetal-sys").join(told),
        Err(_) => built(&root, &machine),
    };
    let archive = folder.join("libjoistpetal.a");
    println!("cargo::rerun-if-changed={}", archive.display());
    if !archive.is_file() {
        stop(&format!(
            "{} is missing. Run `include/archive {machine}` of the repository, \
             or set JOISTPETAL_LIB to the folder that holds libjoistpetal.a",
            archive.display()
        ));
    }
    println!("cargo::rustc-link-search=native={}", folder.display());
    println!("cargo::rustc-link-lib=static=joistpetal");
}

/// Where `include/archive` leaves the archive for the machine. If it is not kept there, or no longer that of `crates/`, it is proved and
/// built now, and that is said.
fn built(root: &Path, machine: &str) -> PathBuf {
    let folder = root.join("build").join(machine);
    if !root.join("include/archive").is_file() {
        return folder;
    }
    println!("cargo::rerun-if-changed={}", root.join("crates").display());
    if asked(root, &["--kept", machine]) == Ok(0) {
        return folder;
    }
    println!(
        "cargo::warning=proving and building the library with include/archive {machine}, some minutes"
    );
    match asked(root, &[machine]) {
        Ok(0) => folder,
        Ok(status) => stop(&format!(
            "include/archive {machine} ended with status {status}: run it by hand to see why, \
             or set JOISTPETAL_LIB to the folder that holds libjoistpetal.a"
        )),
        Err(why) => stop(&why),
    }
}

/// The status of `include/archive`; what it says goes to cargo's record of this build.
fn asked(root: &Path, words: &[&str]) -> Result<i32, String> {
    Command::new(root.join("include/archive"))
        .args(words)
        .status()
        .map(|status| status.code().unwrap_or(1))
        .map_err(|why| format!("include/archive could not be started: {why}"))
}

/// Cargo shows the error and stops the build by itself; a status of failure would bury it under the whole output.
fn stop(why: &str) -> ! {
    println!("cargo::error={why}");
    exit(0)
}
