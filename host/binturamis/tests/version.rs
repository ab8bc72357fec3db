//! One version: the file `VERSION` at the top says it, and the header and this package are held to
//! it.

use std::fs;
use std::path::Path;

fn read(file: &str) -> Result<String, String> {
    let path = Path::new(env!("CARGO_MANIFEST_DIR"))
        .join("../..")
        .join(file);
    fs::read_to_string(&path).map_err(|error| format!("{}: {error}", path.display()))
}

/// What the header defines a name as.
fn defined<'a>(header: &'a str, name: &str) -> Result<&'a str, String> {
    let define = format!("#define BINTURAMIS_{name} ");
    let mut lines = header.lines();
    let found = lines.find_map(|line| line.strip_prefix(&define));
    found.ok_or(format!("the header has no {name}"))
}

#[test]
fn the_header_and_this_package_have_the_version_of_the_file() -> Result<(), String> {
    let version = read("VERSION")?;
    let version = version.trim_end();
    assert_eq!(binturamis::VERSION, version, "host/binturamis/Cargo.toml");
    let header = read("include/binturamis.h")?;
    assert_eq!(defined(&header, "VERSION")?, format!("\"{version}\""));
    let mut parts = Vec::new();
    for name in ["VERSION_MAJOR", "VERSION_MINOR", "VERSION_PATCH"] {
        parts.push(defined(&header, name)?.trim_end_matches('u'));
    }
    assert_eq!(parts.join("."), version, "the header's three numbers");
    Ok(())
}
