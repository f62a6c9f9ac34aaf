//! Makes the oracle out of the ion-hf source text and links the verified functions.
//! No line of the source is kept here: only what is changed in it.

#[path = "build/changes.rs"]
mod changes;
#[path = "build/text.rs"]
mod text;

use std::env;
use std::fs;
use std::path::{Path, PathBuf};

use text::Made;

fn main() {
    println!("cargo::rerun-if-changed=build.rs");
    println!("cargo::rerun-if-changed=build");
    println!("cargo::rustc-check-cfg=cfg(ion_hf)");
    link_probes();
    let source = source_folder();
    println!("cargo::rerun-if-changed={}", source.display());
    if source.join("crates").is_dir() {
        write_oracle(&source);
        println!("cargo::rustc-cfg=ion_hf");
    }
}

/// A path from the environment, else one relative to this package.
fn path_from(variable: &str, relative: &str) -> PathBuf {
    println!("cargo::rerun-if-env-changed={variable}");
    match env::var_os(variable) {
        Some(path) => path.into(),
        None => Path::new(&env::var_os("CARGO_MANIFEST_DIR").unwrap()).join(relative),
    }
}

fn source_folder() -> PathBuf {
    path_from("ION_HF_SRC", "../../shared/docs/src")
}

/// An archive has the functions that its own crate exports, and not those of the crates below.
fn link_probes() {
    let folder = path_from("PROBES_DIR", "../target/staticlib");
    println!("cargo::rustc-link-search=native={}", folder.display());
    for name in ["record", "probes", "bursts", "headers", "asides"] {
        let library = folder.join(format!("lib{name}.a"));
        println!("cargo::rerun-if-changed={}", library.display());
        assert!(library.is_file(), "no {}: run `./archives {name}` first", library.display());
        println!("cargo::rustc-link-lib=static={name}");
    }
}

fn write_oracle(source: &Path) {
    let out = PathBuf::from(env::var_os("OUT_DIR").unwrap());
    let published = out.join("published");
    fs::create_dir_all(&published).unwrap();
    for part in changes::PARTS {
        let path = source.join(part.file);
        let whole = fs::read_to_string(&path).unwrap_or_else(|e| panic!("{}: {e}", path.display()));
        for (made, folder) in [(Made::Oracle, &out), (Made::Published, &published)] {
            let text = text::make(part, &whole, made).unwrap_or_else(|why| panic!("{}: {why}", part.file));
            fs::write(folder.join(part.name), text).unwrap();
        }
    }
}
