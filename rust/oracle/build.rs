//! Finds the folder of the unchanged originals and hands it to the crate:
//! WASSIGN_SRC (from the repository's root if relative), or else the usual
//! place beside the repository.
use std::env;
use std::path::PathBuf;

/// The originals that lib.rs includes.
const FILES: [&str; 13] = [
    "assignment",
    "assignment_solver",
    "constraint",
    "critical_set_analysis",
    "input_data",
    "mip_flow",
    "mip_flow_static_data",
    "options",
    "prepared_problem",
    "scheduling",
    "score",
    "scoring",
    "solution",
];

fn main() {
    println!("cargo::rerun-if-env-changed=WASSIGN_SRC");
    let root = PathBuf::from(env::var_os("CARGO_MANIFEST_DIR").unwrap()).join("../..");
    let named = env::var_os("WASSIGN_SRC").filter(|named| !named.is_empty());
    let folder = root.join(named.unwrap_or("../shared/docs/src/src".into()));
    println!("cargo::rerun-if-changed={}", folder.display());
    let whole = FILES.iter().all(|file| folder.join(file).with_extension("rs").is_file());
    match folder.canonicalize() {
        Ok(folder) if whole => println!("cargo::rustc-env=WASSIGN_SRC_DIR={}", folder.display()),
        _ => println!(
            "cargo::error=the originals of wassign are not in {}: name their folder in WASSIGN_SRC",
            folder.display()
        ),
    }
}
