//! Tells cargo where `bindings/library` leaves libzlf.a: target/staticlib of the repository, or the folder that ZLF_LIB names.
fn main() {
    println!("cargo:rerun-if-env-changed=ZLF_LIB");
    let beside = concat!(env!("CARGO_MANIFEST_DIR"), "/../../target/staticlib");
    let folder = std::env::var("ZLF_LIB").unwrap_or_else(|_| beside.into());
    println!("cargo:rustc-link-search=native={folder}");
}
