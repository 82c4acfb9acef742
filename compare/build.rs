//! Checks the original sources against their recorded digests and lays them out for the compiler:
//! `walls.rs` as it is, `walls/search.rs` with one line appended, and the grid's pieces of `lib.rs`.

use std::{
    env, fs,
    path::{Path, PathBuf},
};

#[path = "src/sha256.rs"]
mod sha256;

/// The one change to the originals: this line, at the end of `walls/search.rs`.
const APPENDED: &str = "pub mod probe;\n";

/// The items of `lib.rs` that the wall modules lean on: from the first text up to, not including,
/// the second. Methods stand between an `impl` line and a closing brace of their own.
const PIECES: [(&str, &str); 5] = [
    ("const MAX_TILES_PER_AXIS", "const ORTHOGONAL_COST"),
    (
        "/// An 8-pixel walk-cell coordinate.",
        "/// A point-grid path.",
    ),
    (
        "/// An error while constructing or querying",
        "impl std::fmt::Display for Endpoint",
    ),
    (
        "    /// Creates a grid from already-resolved",
        "    /// Returns a copy with every walk cell",
    ),
    ("fn validate_grid_shape", "fn elevation("),
];
const METHODS: usize = 3;

fn main() {
    for path in ["build.rs", "original", "src/sha256.rs", "src/walls"] {
        println!("cargo::rerun-if-changed={path}");
    }
    let out = PathBuf::from(env::var_os("OUT_DIR").expect("set by cargo"));
    let sums = fs::read_to_string("original/SHA256SUMS").expect("recorded digests");
    let walls = original(&sums, "walls.rs");
    let search = original(&sums, "walls/search.rs");
    let library = original(&sums, "lib.rs");

    fs::create_dir_all(out.join("walls/search")).expect("output directory");
    write(&out.join("walls.rs"), &walls);
    write(&out.join("walls/search.rs"), &format!("{search}{APPENDED}"));
    write(&out.join("grid.rs"), &grid(&library));
    write(&out.join("modules.rs"), "pub mod walls;\n");
    let probe = fs::read_to_string("src/walls/search/probe.rs").expect("probe module");
    write(&out.join("walls/search/probe.rs"), &probe);
    println!("cargo::rustc-env=APPENDED_LINE={}", APPENDED.trim_end());
}

/// The text of an original, if its bytes have the recorded digest. The build ends otherwise.
fn original(sums: &str, name: &str) -> String {
    let bytes = fs::read(Path::new("original").join(name)).expect("original source");
    let recorded = sha256::recorded(sums, name).expect("a recorded digest");
    let found = sha256::hex(&bytes);
    assert!(
        found == recorded,
        "original/{name} was altered: its digest is {found}, recorded is {recorded}"
    );
    String::from_utf8(bytes).expect("source text")
}

fn grid(library: &str) -> String {
    let mut text = String::from("use thiserror::Error;\n\n");
    for (number, (from, to)) in PIECES.iter().enumerate() {
        let start = library.find(from).expect("first text of a piece");
        let length = library[start..].find(to).expect("text after a piece");
        let piece = library[start..start + length].trim_end();
        if number == METHODS {
            text += &format!("impl TerrainGrid {{\n{piece}\n}}\n\n");
        } else {
            text += &format!("{piece}\n\n");
        }
    }
    text
}

fn write(path: &Path, text: &str) {
    fs::write(path, text).expect("written source");
    assert!(
        fs::read(path).expect("written source") == text.as_bytes(),
        "the compiler's copy differs from what was written"
    );
}
