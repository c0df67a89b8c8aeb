// Links libhost.a, which `rt lib --cpu=x86-64` in ../crates/host writes to ../crates/host/out; TILLBONNET_LIB names another folder.
fn main() {
    println!("cargo:rerun-if-env-changed=TILLBONNET_LIB");
    let here = std::env::var("CARGO_MANIFEST_DIR").expect("cargo sets it");
    let folder = std::env::var("TILLBONNET_LIB").unwrap_or_else(|_| format!("{here}/../crates/host/out"));
    println!("cargo:rerun-if-changed={folder}/libhost.a");
    println!("cargo:rustc-link-search=native={folder}");
    println!("cargo:rustc-link-lib=static=host");
}
