//! Links libsolarbasil.a, which `rt lib` in crates/solarbasil writes to out/ there. SOLARBASIL_LIB names another folder
//! to find it in.
use std::env;
use std::path::PathBuf;

fn main() {
    let folder = match env::var_os("SOLARBASIL_LIB") {
        Some(folder) => PathBuf::from(folder),
        None => PathBuf::from(env::var_os("CARGO_MANIFEST_DIR").unwrap()).join("../../crates/solarbasil/out"),
    };
    println!("cargo:rustc-link-search=native={}", folder.display());
    println!("cargo:rustc-link-lib=static=solarbasil");
    println!("cargo:rerun-if-changed={}", folder.join("libsolarbasil.a").display());
    println!("cargo:rerun-if-env-changed=SOLARBASIL_LIB");
}
