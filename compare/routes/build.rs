// Links the static library that `make routes` writes.
fn main() {
    let root = std::path::Path::new(env!("CARGO_MANIFEST_DIR")).join("../../target/staticlib");
    println!("cargo:rustc-link-search=native={}", root.display());
    println!("cargo:rustc-link-lib=static=route_c");
    println!(
        "cargo:rerun-if-changed={}",
        root.join("libroute_c.a").display()
    );
}
