//! Links `libwalls_c.a`, which `make lib` writes to `target/staticlib` of the repository.
//! `HITROVZEN_LIB` names another archive, or the folder that holds it.

use std::{
    env,
    path::{Path, PathBuf},
    process::exit,
};

const ARCHIVE: &str = "libwalls_c.a";

fn main() {
    println!("cargo:rerun-if-env-changed=HITROVZEN_LIB");
    let archive = archive();
    println!("cargo:rerun-if-changed={}", archive.display());
    if !archive.is_file() {
        eprintln!("hitrovzen: there is no archive at {}", archive.display());
        eprintln!("hitrovzen: run `make lib` at the root of the repository, or set HITROVZEN_LIB to {ARCHIVE} or to its folder");
        exit(1);
    }
    let folder = archive.parent().unwrap_or(Path::new("."));
    println!("cargo:rustc-link-search=native={}", folder.display());
    println!("cargo:rustc-link-lib=static=walls_c");
}

fn archive() -> PathBuf {
    match env::var_os("HITROVZEN_LIB").filter(|given| !given.is_empty()) {
        Some(given) if Path::new(&given).file_name() == Some(ARCHIVE.as_ref()) => given.into(),
        Some(given) => Path::new(&given).join(ARCHIVE),
        None => Path::new(env!("CARGO_MANIFEST_DIR"))
            .join("../../target/staticlib")
            .join(ARCHIVE),
    }
}
