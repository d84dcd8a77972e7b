//! Links the proved library, `libartmap.a`: that in the folder which `ARTMAP_LIB_DIR` names, or that of this package for the
//! target, or that which `./lib` makes in the repository's `out`.
use std::path::{Path, PathBuf};
use std::{env, process};

/// The folder with the library for this target, if there is one.
fn folder(here: &Path, target: &str) -> Option<PathBuf> {
    let named = env::var_os("ARTMAP_LIB_DIR").filter(|it| !it.is_empty());
    let places = match named {
        Some(named) => vec![PathBuf::from(named)],
        None if target == "x86_64-unknown-linux-gnu" => {
            vec![here.join("lib").join(target), here.join("../../out")]
        }
        None => Vec::new(),
    };
    places.into_iter().find(|it| it.join("libartmap.a").exists())
}

fn main() {
    println!("cargo:rerun-if-changed=build.rs");
    println!("cargo:rerun-if-env-changed=ARTMAP_LIB_DIR");
    let here = PathBuf::from(env::var_os("CARGO_MANIFEST_DIR").unwrap_or_default());
    let target = env::var("TARGET").unwrap_or_default();
    let Some(folder) = folder(&here, &target) else {
        eprintln!(
            "artmap: no libartmap.a for {target} is here: run ./lib in the repository of art, or name its folder in \
             ARTMAP_LIB_DIR"
        );
        process::exit(1);
    };
    let folder = folder.canonicalize().unwrap_or(folder);
    println!("cargo:rerun-if-changed={}", folder.join("libartmap.a").display());
    println!("cargo:rustc-link-search=native={}", folder.display());
    println!("cargo:rustc-link-lib=static=artmap");
}
