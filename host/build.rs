// Links the archive that tools/archives writes.
fn main() {
    let root = std::path::Path::new(env!("CARGO_MANIFEST_DIR")).parent().unwrap();
    let archive = root.join("target/staticlib");
    println!("cargo:rustc-link-search=native={}", archive.display());
    println!("cargo:rustc-link-lib=static=sc16is752");
    println!("cargo:rerun-if-changed={}", archive.join("libsc16is752.a").display());
}
