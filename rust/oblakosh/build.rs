//! Links the static libraries that the repository's `./build` made: in OBLAKOSH_LIB_DIR, else in its target/staticlib.
use std::env;
use std::fs;
use std::os::unix::process::parent_id;
use std::path::{Path, PathBuf};

/// The folder that cargo was called in, from which a relative folder is meant; cargo itself runs this file in the crate's.
fn called_in() -> PathBuf {
    fs::read_link(format!("/proc/{}/cwd", parent_id()))
        .expect("the folder that cargo was called in")
}

fn main() {
    let dir = match env::var_os("OBLAKOSH_LIB_DIR") {
        Some(dir) if Path::new(&dir).is_relative() => called_in().join(dir),
        Some(dir) => PathBuf::from(dir),
        None => {
            PathBuf::from(env::var_os("CARGO_MANIFEST_DIR").unwrap()).join("../../target/staticlib")
        }
    };
    let names: &[&str] = match env::var_os("CARGO_FEATURE_CONTROLLER") {
        Some(_) => &["oblakosh", "moving"],
        None => &["linked_judge"],
    };
    println!("cargo:rerun-if-env-changed=OBLAKOSH_LIB_DIR");
    println!("cargo:rustc-link-search=native={}", dir.display());
    for name in names {
        let library = dir.join(format!("lib{}.a", name));
        println!("cargo:rerun-if-changed={}", library.display());
        println!("cargo:rustc-link-lib=static={}", name);
    }
}
