//! Finds the C library: in the folder `ANTIENTROPY_LIBRARY_DIR`, otherwise by `pkg-config`.
//!
//! It is linked statically if `ANTIENTROPY_STATIC` is set.

use std::env;
use std::process::Command;

const FOLDER: &str = "ANTIENTROPY_LIBRARY_DIR";
const STATIC: &str = "ANTIENTROPY_STATIC";

fn main() {
    for name in [FOLDER, STATIC, "PKG_CONFIG_PATH"] {
        println!("cargo:rerun-if-env-changed={name}");
    }
    for folder in folders() {
        println!("cargo:rustc-link-search=native={folder}");
    }
    let kind = if env::var_os(STATIC).is_some() { "static" } else { "dylib" };
    println!("cargo:rustc-link-lib={kind}=antientropy");
}

/// Returns the folders to search. The linker knows some others itself.
fn folders() -> Vec<String> {
    match env::var(FOLDER) {
        Ok(folder) => {
            println!("cargo:rerun-if-changed={folder}");
            vec![folder]
        }
        Err(_) => pkg_config().unwrap_or_else(|error| panic!("set {FOLDER} to the folder of ./build-c: {error}")),
    }
}

/// Returns the folders that `pkg-config` names.
fn pkg_config() -> Result<Vec<String>, String> {
    let mut command = Command::new("pkg-config");
    // rustc doesn't look for a static library in the folders of the system, unless they are named.
    command.args(["--libs", "antientropy"]).env("PKG_CONFIG_ALLOW_SYSTEM_LIBS", "1");
    let done = command.output().map_err(|error| format!("pkg-config: {error}"))?;
    if !done.status.success() {
        return Err(String::from_utf8_lossy(&done.stderr).into_owned());
    }
    let words = String::from_utf8_lossy(&done.stdout).into_owned();
    Ok(words.split_whitespace().filter_map(|word| word.strip_prefix("-L")).map(str::to_owned).collect())
}
