//! Links the library: the static one of the folder that X3D_LIB names, or of `make library` in out/ of
//! this checkout; or else the system's shared one.
use std::path::{Path, PathBuf};

fn main() {
    println!("cargo:rerun-if-env-changed=X3D_LIB");
    let beside = Path::new(env!("CARGO_MANIFEST_DIR")).join("../../out");
    let named = std::env::var("X3D_LIB").ok().map(PathBuf::from);
    let Some(folder) = named.or_else(|| Some(beside).filter(|folder| folder.exists())) else {
        println!("cargo:rustc-link-lib=dylib=x3d");
        return;
    };
    println!("cargo:rustc-link-search=native={}", folder.display());
    println!("cargo:rustc-link-lib=static=x3d");
    println!(
        "cargo:rerun-if-changed={}",
        folder.join("libx3d.a").display()
    );
}
