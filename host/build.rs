//! Links the proved library, `librecord.a`.

use std::env;
use std::path::{Path, PathBuf};

fn main() {
    println!("cargo:rerun-if-changed=build.rs");
    println!("cargo:rerun-if-env-changed=RECORD_DIR");
    let folder = match env::var_os("RECORD_DIR") {
        Some(folder) => PathBuf::from(folder),
        None => Path::new(&env::var_os("CARGO_MANIFEST_DIR").unwrap()).join("../target/staticlib"),
    };
    let library = folder.join("librecord.a");
    println!("cargo:rerun-if-changed={}", library.display());
    if !library.is_file() {
        eprintln!("{} is missing.", library.display());
        eprintln!("Run `./archives record` in the root of the repository: it proves the library and writes it.");
        eprintln!("RECORD_DIR names another folder that holds librecord.a.");
        std::process::exit(1);
    }
    println!("cargo:rustc-link-search=native={}", folder.display());
    println!("cargo:rustc-link-lib=static=record");
}
