//! Links libhimalowen.a from the folder in which `tools/build himalowen` leaves it, or from HIMALOWEN_LIB.

fn main() {
    let built = concat!(env!("CARGO_MANIFEST_DIR"), "/../../target/staticlib");
    let folder = std::env::var("HIMALOWEN_LIB").unwrap_or(built.to_string());
    println!("cargo:rerun-if-env-changed=HIMALOWEN_LIB");
    println!("cargo:rerun-if-changed={folder}/libhimalowen.a");
    println!("cargo:rustc-link-search=native={folder}");
    println!("cargo:rustc-link-lib=static=himalowen");
}
