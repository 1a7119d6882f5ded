//! Finds the library: in the folder that VIPR_LIB_DIR names, and else where the linker looks. VIPR_STATIC links the archive.
use std::env;

fn main() {
    println!("cargo:rerun-if-env-changed=VIPR_LIB_DIR");
    println!("cargo:rerun-if-env-changed=VIPR_STATIC");
    if let Ok(folder) = env::var("VIPR_LIB_DIR") {
        println!("cargo:rustc-link-search=native={folder}");
    }
    let kind = if env::var_os("VIPR_STATIC").is_some() { "static" } else { "dylib" };
    println!("cargo:rustc-link-lib={kind}=vipr");
}
