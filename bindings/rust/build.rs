//! Links librelc.a, which `bindings/build.sh` makes. It is sought in the folder RELC_LIB, an absolute path, where that is set, and
//! else beside this crate: in ../out, as in the repository, and in ../lib, as in a release.

use std::env;
use std::path::{Path, PathBuf};

fn main() {
    println!("cargo::rerun-if-env-changed=RELC_LIB");
    let here = env::var_os("CARGO_MANIFEST_DIR").expect("cargo gives it");
    let beside = |folder: &str| Path::new(&here).join(folder);
    let folders = match env::var_os("RELC_LIB") {
        Some(folder) => vec![PathBuf::from(folder)],
        None => vec![beside("../out"), beside("../lib")],
    };
    // (a build script runs in this crate's folder, not where cargo was called)
    if folders.iter().any(|folder| folder.is_relative()) {
        println!("cargo::error=RELC_LIB is to be an absolute path");
    }
    for folder in &folders {
        println!(
            "cargo::rerun-if-changed={}",
            folder.join("librelc.a").display()
        );
    }
    let Some(folder) = folders
        .iter()
        .find(|folder| folder.join("librelc.a").exists())
    else {
        println!(
            "cargo::error=there is no {}: bindings/build.sh of RELC's repository makes it, a release has it in lib/, and \
             RELC_LIB is the absolute path of another folder with it",
            folders[0].join("librelc.a").display()
        );
        return;
    };
    println!("cargo::rustc-link-search=native={}", folder.display());
    println!("cargo::rustc-link-lib=static=relc");
}
