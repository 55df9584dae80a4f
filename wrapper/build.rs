//! Links the archive of the proved library, libpanel.a: from the folder NYELGOMIR_LIB, or from where `rt lib` in crates/panel puts it.

fn main() {
    let folder = std::env::var("NYELGOMIR_LIB").unwrap_or_else(|_| concat!(env!("CARGO_MANIFEST_DIR"), "/../crates/panel/out").into());
    println!("cargo:rerun-if-env-changed=NYELGOMIR_LIB");
    println!("cargo:rerun-if-changed={folder}/libpanel.a");
    println!("cargo:rustc-link-search=native={folder}");
    println!("cargo:rustc-link-lib=static=panel");
}
