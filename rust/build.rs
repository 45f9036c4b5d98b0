//! Finds the static library `libserver.a` and links it. Proving takes minutes, in which cargo shows nothing: a library
//! that is missing is refused at once with the command that makes it, and made here only where `PAVRENNI_PROVE=1` asks.

use std::env;
use std::path::{Path, PathBuf};
use std::process::{exit, Command};

const LIBRARY: &str = "libserver.a";
const SERVER: &str = "crates/server";

fn main() {
    println!("cargo:rerun-if-env-changed=PAVRENNI_LIB_DIR");
    println!("cargo:rerun-if-env-changed=PAVRENNI_PROVE");
    println!("cargo:rerun-if-changed=build.rs");
    match library_folder() {
        Ok(folder) => {
            println!("cargo:rerun-if-changed={}", folder.join(LIBRARY).display());
            println!("cargo:rustc-link-search=native={}", folder.display());
            println!("cargo:rustc-link-lib=static=server");
        }
        Err(why) => {
            eprintln!("pavrenni: {why}");
            exit(1);
        }
    }
}

/// The folder that `PAVRENNI_LIB_DIR` names, else the repository's; an error where the library is not in it.
fn library_folder() -> Result<PathBuf, String> {
    let crate_folder = PathBuf::from(env::var_os("CARGO_MANIFEST_DIR").ok_or("cargo names no CARGO_MANIFEST_DIR")?);
    let top = crate_folder.parent().ok_or("the crate stands in no repository")?;
    let named = env::var_os("PAVRENNI_LIB_DIR").map(PathBuf::from);
    let asked = named.is_none() && env::var_os("PAVRENNI_PROVE").is_some_and(|asked| asked == "1");
    let folder = named.unwrap_or_else(|| top.join(SERVER).join("out"));
    if asked && !folder.join(LIBRARY).is_file() {
        make_library(top)?;
    }
    if folder.join(LIBRARY).is_file() {
        Ok(folder)
    } else {
        Err(missing(&folder, top))
    }
}

/// What to do about it.
fn missing(folder: &Path, top: &Path) -> String {
    format!(
        "there is no {LIBRARY} in {}: run `rt lib` in {}, which proves it in some minutes and leaves it in out there, or \
         name another folder that has one in PAVRENNI_LIB_DIR; with PAVRENNI_PROVE=1, and PAVRENNI_LIB_DIR unset, cargo \
         runs the command itself",
        folder.display(),
        top.join(SERVER).display()
    )
}

fn make_library(top: &Path) -> Result<(), String> {
    let server = top.join(SERVER);
    let command = format!("`rt lib` in {}", server.display());
    let status = Command::new("rt").arg("lib").current_dir(server).status();
    match status {
        Ok(status) if status.success() => Ok(()),
        Ok(status) => Err(format!("{command} ended with {status}")),
        Err(why) => Err(format!("{command} could not be run: {why}")),
    }
}
