//! Tells cargo where the archive lies: in the folder that NGAMSOTHUL_LIBRARY names, else where `./run library` puts it.

use std::env::{current_dir, var_os};
use std::process::exit;

const FOLDER: &str = "NGAMSOTHUL_LIBRARY";

fn main() {
    println!("cargo:rerun-if-changed=build.rs");
    println!("cargo:rerun-if-env-changed={FOLDER}");
    let folder = var_os(FOLDER).unwrap_or("../target/library".into());
    let folder = current_dir().expect("this crate's folder").join(folder);
    let archive = folder.join("libngamsothul.a");
    if !archive.is_file() {
        eprintln!("ngamsothul: there is no {}", archive.display());
        eprintln!("ngamsothul: `./run library` in the repository makes it; {FOLDER} may name another folder that has it, by its full path");
        exit(1);
    }
    println!("cargo:rerun-if-changed={}", archive.display());
    println!("cargo:rustc-link-search=native={}", folder.display());
    println!("cargo:rustc-link-lib=static=ngamsothul");
}
