//! Links the static library: the repository's target/staticlib/libexports.a, which `./build library` writes, or the libbulanevior.a
//! that `./install` put in place; they are the same. BULANEVIOR_LIB names the folder where it is another one.
use std::path::{Path, PathBuf};

/// The library in a folder: the folder, and the name that it has there.
fn library(folder: PathBuf) -> Option<(PathBuf, &'static str)> {
    let there = |name: &&str| folder.join(format!("lib{name}.a")).exists();
    let name = ["bulanevior", "exports"].into_iter().find(there)?;
    Some((folder, name))
}

/// The folders in which it may be.
fn folders() -> Vec<PathBuf> {
    let here = Path::new(env!("CARGO_MANIFEST_DIR"));
    std::env::var_os("BULANEVIOR_LIB").map_or_else(
        || vec![here.join("../target/staticlib"), here.join("../../../lib")],
        |named| vec![named.into()],
    )
}

fn main() {
    println!("cargo:rerun-if-env-changed=BULANEVIOR_LIB");
    let Some((folder, name)) = folders().into_iter().find_map(library) else {
        panic!(
            "the library is in none of {:?}: run `./build library`, or name its folder in BULANEVIOR_LIB",
            folders()
        );
    };
    let file = folder.join(format!("lib{name}.a"));
    println!("cargo:rustc-link-search=native={}", folder.display());
    println!("cargo:rustc-link-lib=static={name}");
    println!("cargo:rerun-if-changed={}", file.display());
}
