//! Links the static library: the archive that HATHURMO_LIB names (a relative path counts from this crate), or else the project's
//! target/staticlib/libcapi.a.
use std::path::{Path, PathBuf};

fn archive() -> PathBuf {
    let manifest = std::env::var("CARGO_MANIFEST_DIR").expect("cargo names the manifest's directory");
    match std::env::var_os("HATHURMO_LIB") {
        Some(path) => PathBuf::from(path),
        None => Path::new(&manifest).join("../target/staticlib/libcapi.a"),
    }
}

fn main() {
    println!("cargo:rerun-if-env-changed=HATHURMO_LIB");
    let archive = archive();
    println!("cargo:rerun-if-changed={}", archive.display());
    let path = archive.canonicalize().unwrap_or_else(|error| {
        panic!("{}: {error}; build it by `tests/archive`, or name another archive in HATHURMO_LIB", archive.display())
    });
    let name = path.file_name().and_then(|name| name.to_str()).unwrap_or_default();
    let name = name.strip_prefix("lib").and_then(|name| name.strip_suffix(".a"));
    let name = name.unwrap_or_else(|| panic!("{}: an archive is named lib..a", path.display()));
    let directory = path.parent().expect("a file stands in a directory");
    println!("cargo:rustc-link-search=native={}", directory.display());
    println!("cargo:rustc-link-lib=static={name}");
}
