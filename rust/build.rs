//! Links `liblimbatue.a` from the folder that `LIMBATUE_LIB` names; where it names none, from `../target/lib` in the repository, else from where pkg-config says that the library is installed.

use std::path::{Path, PathBuf};
use std::process::Command;

fn main() {
    println!("cargo::rerun-if-env-changed=LIMBATUE_LIB");
    println!("cargo::rerun-if-env-changed=PKG_CONFIG_PATH");
    let folder = folder();
    let archive = archive_in(&folder);
    if !archive.is_file() {
        println!(
            "cargo::error={} is missing: run `tools/archive` in the repository of Limbatue, or set LIMBATUE_LIB=PREFIX/lib where the library is installed under PREFIX",
            archive.display()
        );
        return;
    }
    println!("cargo::rerun-if-changed={}", archive.display());
    println!("cargo::rustc-link-search=native={}", folder.display());
    println!("cargo::rustc-link-lib=static=limbatue");
}

/// The folder whose archive is linked. It may lack one.
fn folder() -> PathBuf {
    if let Some(named) = std::env::var_os("LIMBATUE_LIB") {
        return std::path::absolute(&named).unwrap_or(named.into());
    }
    let repository = Path::new(env!("CARGO_MANIFEST_DIR")).join("../target/lib");
    if archive_in(&repository).is_file() { repository } else { installed().unwrap_or(repository) }
}

/// The archive in a folder.
fn archive_in(folder: &Path) -> PathBuf {
    folder.join("liblimbatue.a")
}

/// The folder of the installed library, where pkg-config is there and knows one.
fn installed() -> Option<PathBuf> {
    let said = Command::new("pkg-config").args(["--variable=libdir", "limbatue"]).output().ok()?;
    let folder = String::from_utf8(said.stdout).ok()?;
    (said.status.success() && !folder.trim().is_empty()).then(|| folder.trim().into())
}
