//! Finds the library: in the folder that the environment's ROWANSPAN_DIST names, or in its lib; else in ../lib, as an
//! unpacked release has it; else in ../../dist, where scripts/build_library puts it.

use std::env;
use std::path::{Path, PathBuf};
use std::process::exit;

const ARCHIVE: &str = "librowanspan.a";

fn main() {
    println!("cargo:rerun-if-env-changed=ROWANSPAN_DIST");
    let folders = folders();
    match folders.iter().find(|folder| folder.join(ARCHIVE).is_file()) {
        Some(folder) => {
            println!("cargo:rerun-if-changed={}", folder.join(ARCHIVE).display());
            println!("cargo:rustc-link-search=native={}", folder.display());
            println!("cargo:rustc-link-lib=static=rowanspan");
        }
        None => stop(&folders),
    }
}

// Where the library may be, the first choice first.
fn folders() -> Vec<PathBuf> {
    match env::var_os("ROWANSPAN_DIST") {
        Some(folder) => vec![PathBuf::from(&folder), Path::new(&folder).join("lib")],
        None => {
            let here = PathBuf::from(env::var_os("CARGO_MANIFEST_DIR").expect("cargo sets it"));
            vec![here.join("../lib"), here.join("../../dist")]
        }
    }
}

fn stop(folders: &[PathBuf]) {
    for folder in folders {
        eprintln!("rowanspan: there is no {}", folder.join(ARCHIVE).display());
    }
    eprintln!(
        "rowanspan: set ROWANSPAN_DIST to the folder of {ARCHIVE}, or to an unpacked release of Rowanspan \
         (in a checkout, scripts/build_library makes dist)"
    );
    exit(1);
}
