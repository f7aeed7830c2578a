//! Copies the Rust's own files, unchanged, from the folder NINTERP_SRC into OUT_DIR
//! and writes for each folder of modules a `mods.rs` that the crate includes.
//! A file may be cut: then what stands before one line of it is copied.

use std::collections::BTreeMap;
use std::path::{Path, PathBuf};
use std::{env, fs};

struct File {
    /// Its name in the folder.
    name: &'static str,
    /// The module that holds it.
    parent: &'static str,
    module: &'static str,
    /// The start of the first line that is left out.
    until: Option<&'static str>,
}

const FILES: [File; 2] = [
    File {
        name: "src--src--strategy--utils.rs.txt",
        parent: "strategy",
        module: "utils",
        until: None,
    },
    File {
        name: "src--src--interpolator--n--strategies.rs.txt",
        parent: "interpolator/n",
        module: "strategies",
        until: Some("impl<D> StrategyND<D> for CubicC2"),
    },
];

fn source_folder() -> PathBuf {
    println!("cargo:rerun-if-env-changed=NINTERP_SRC");
    match env::var_os("NINTERP_SRC") {
        Some(folder) => PathBuf::from(folder),
        None => {
            Path::new(&env::var_os("CARGO_MANIFEST_DIR").unwrap()).join("../../shared/docs/src")
        }
    }
}

/// What stands before the first line that begins with `until`.
fn cut(text: String, until: &str, from: &Path) -> String {
    let mut kept = 0;
    for line in text.split_inclusive('\n') {
        if line.starts_with(until) {
            return text[..kept].into();
        }
        kept += line.len();
    }
    panic!("{}: no line begins with `{until}`", from.display())
}

fn copy(from: &Path, until: Option<&str>, to: &Path) {
    println!("cargo:rerun-if-changed={}", from.display());
    let mut text = fs::read_to_string(from)
        .unwrap_or_else(|e| panic!("{}: {e}; set NINTERP_SRC", from.display()));
    if let Some(until) = until {
        text = cut(text, until, from);
    }
    fs::create_dir_all(to.parent().unwrap()).unwrap();
    fs::write(to, text).unwrap();
}

/// `#[path]`, since a file with inner docs cannot be the subject of `include!`.
fn mod_line(file: &Path, name: &str) -> String {
    format!("#[path = {:?}]\npub mod {name};\n", file.to_str().unwrap())
}

fn main() {
    println!("cargo:rerun-if-changed=build.rs");
    let source = source_folder();
    let out = PathBuf::from(env::var_os("OUT_DIR").unwrap());
    let mut mods = BTreeMap::<&str, String>::new();
    for file in FILES {
        let to = out.join(file.parent).join(format!("{}.rs", file.module));
        copy(&source.join(file.name), file.until, &to);
        *mods.entry(file.parent).or_default() += &mod_line(&to, file.module);
    }
    for (parent, lines) in mods {
        fs::write(out.join(parent).join("mods.rs"), lines).unwrap();
    }
}
