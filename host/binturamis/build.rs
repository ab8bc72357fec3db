//! Finds the library that `make library` leaves: in the directory that `BINTURAMIS_LIBRARY_DIR`
//! names, or in `target/library` of the repository.

use std::env;
use std::path::{Path, PathBuf};
use std::process;

const DIRECTORY: &str = "BINTURAMIS_LIBRARY_DIR";

fn main() {
    if let Err(error) = find() {
        eprintln!("{error}");
        process::exit(1);
    }
}

fn find() -> Result<(), String> {
    println!("cargo:rerun-if-env-changed={DIRECTORY}");
    let directory = directory()?;
    let archive = directory.join("libbinturamis.a");
    println!("cargo:rerun-if-changed={}", archive.display());
    if !archive.is_file() {
        return Err(format!(
            "{} is missing: run `make library` at the top of the repository, \
             or name the directory that has it in {DIRECTORY}",
            archive.display()
        ));
    }
    println!("cargo:rustc-link-search=native={}", directory.display());
    println!("cargo:rustc-env=BINTURAMIS_LIBRARY={}", directory.display());
    Ok(())
}

fn directory() -> Result<PathBuf, String> {
    if let Some(named) = env::var_os(DIRECTORY) {
        let named = PathBuf::from(named);
        return if named.is_absolute() {
            Ok(named)
        } else {
            Err(format!(
                "{DIRECTORY} is {}, which is no absolute path",
                named.display()
            ))
        };
    }
    let package = env::var_os("CARGO_MANIFEST_DIR").ok_or("CARGO_MANIFEST_DIR is not set")?;
    let top = Path::new(&package).ancestors().nth(2);
    let top = top.ok_or("the package stands in no repository")?;
    Ok(top.join("target").join("library"))
}
