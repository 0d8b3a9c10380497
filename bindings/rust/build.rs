//! Links the proved library: the one in the folder that HALLANUPP_LIB_DIR names,
//! or the repository's own, which `rt` builds where it is not there yet.

use std::env::var_os;
use std::io::ErrorKind;
use std::path::{Path, PathBuf};
use std::process::{exit, Command};

const LIBRARY: &str = "libhallanupp.a";

fn main() {
    println!("cargo:rerun-if-changed=build.rs");
    println!("cargo:rerun-if-env-changed=HALLANUPP_LIB_DIR");
    let folder = match var_os("HALLANUPP_LIB_DIR") {
        Some(named) => in_named_folder(PathBuf::from(named)),
        None => in_repository(),
    };
    let folder = folder.unwrap_or_else(|missing| {
        eprintln!("{missing}");
        exit(1);
    });
    println!("cargo:rerun-if-changed={}", folder.join(LIBRARY).display());
    println!("cargo:rustc-link-search=native={}", folder.display());
    println!("cargo:rustc-link-lib=static=hallanupp");
}

/// A folder that the caller names is never built into.
fn in_named_folder(folder: PathBuf) -> Result<PathBuf, String> {
    if folder.join(LIBRARY).is_file() {
        return Ok(folder);
    }
    let folder = folder.display();
    Err(format!(
        "HALLANUPP_LIB_DIR is {folder}, where there is no {LIBRARY}"
    ))
}

fn in_repository() -> Result<PathBuf, String> {
    let package = var_os("CARGO_MANIFEST_DIR").expect("cargo says where this package is");
    let root = PathBuf::from(package).join("../..");
    let folder = root.join("crates/hallanupp/out");
    if !folder.join(LIBRARY).is_file() {
        build(&root)?;
    }
    Ok(folder)
}

fn build(root: &Path) -> Result<(), String> {
    let built = Command::new("rt")
        .arg("lib")
        .current_dir(root.join("crates/hallanupp"))
        .output();
    match built {
        Ok(said) if said.status.success() => Ok(()),
        Ok(said) => {
            let said = [said.stdout, said.stderr].concat();
            let said = String::from_utf8_lossy(&said);
            Err(format!(
                "`rt lib` in crates/hallanupp did not build {LIBRARY}; it said: {}",
                said.trim()
            ))
        }
        Err(error) if error.kind() == ErrorKind::NotFound => Err(format!(
            "{LIBRARY} is not in crates/hallanupp/out of the repository, and rt, which builds it, is not on the PATH"
        )),
        Err(error) => Err(format!("rt, which builds {LIBRARY}, could not be started: {error}")),
    }
}
