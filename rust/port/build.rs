//! Links the proved archive: libseating.a in the folder that CENDRAVOKA_LIB
//! names (from the repository's root if relative), or else in the folder that
//! tools/archive writes.
use std::env;
use std::path::PathBuf;

fn main() {
    println!("cargo::rerun-if-env-changed=CENDRAVOKA_LIB");
    let root = PathBuf::from(env::var_os("CARGO_MANIFEST_DIR").unwrap()).join("../..");
    let named = env::var_os("CENDRAVOKA_LIB").filter(|named| !named.is_empty());
    let folder = root.join(named.unwrap_or("target/staticlib".into()));
    let archive = folder.join("libseating.a");
    println!("cargo::rerun-if-changed={}", archive.display());
    match archive.canonicalize() {
        Ok(archive) => {
            println!("cargo::rustc-env=CENDRAVOKA_ARCHIVE={}", archive.display());
            println!("cargo::rustc-link-search=native={}", folder.display());
            println!("cargo::rustc-link-lib=static=seating");
        }
        Err(_) => {
            println!("cargo::error=there is no {}: run tools/archive first", archive.display())
        }
    }
}
