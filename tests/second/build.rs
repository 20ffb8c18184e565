//! Links the engine's static library. PDIC_LIB names the folder that holds libpdic.a.

use std::env;
use std::path::PathBuf;

fn main() {
    let folder = match env::var("PDIC_LIB") {
        Ok(folder) => PathBuf::from(folder),
        Err(_) => PathBuf::from(env::var("CARGO_MANIFEST_DIR").expect("set by cargo"))
            .join("../../target/staticlib"),
    };
    println!("cargo:rerun-if-env-changed=PDIC_LIB");
    println!("cargo:rerun-if-changed=build.rs");
    println!(
        "cargo:rerun-if-changed={}",
        folder.join("libpdic.a").display()
    );
    println!("cargo:rustc-link-search=native={}", folder.display());
    println!("cargo:rustc-link-lib=static=pdic");
}
