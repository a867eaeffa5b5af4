//! Links libexports.a, from target/staticlib of the repository, where
//! `./archive` puts it, or from the folder TIRNCHEAV_LIB.

fn main() {
    let default = concat!(env!("CARGO_MANIFEST_DIR"), "/../../target/staticlib").to_string();
    let folder = std::env::var("TIRNCHEAV_LIB").unwrap_or(default);
    println!("cargo:rerun-if-env-changed=TIRNCHEAV_LIB");
    println!("cargo:rerun-if-changed={folder}/libexports.a");
    println!("cargo:rustc-link-search=native={folder}");
    println!("cargo:rustc-link-lib=static=exports");
    println!("cargo:rustc-env=TIRNCHEAV_LIB={folder}");
}
