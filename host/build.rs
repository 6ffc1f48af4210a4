//! With the feature `archive`: link libboard.a and liblaboratory.a, found in BOARD_LIB_DIR.

use std::ffi::OsString;
use std::path::PathBuf;
use std::{env, process};

fn main() {
    println!("cargo:rerun-if-changed=build.rs");
    println!("cargo:rerun-if-env-changed=BOARD_LIB_DIR");
    if env::var_os("CARGO_FEATURE_ARCHIVE").is_none() {
        return;
    }
    let dir = folder(env::var_os("BOARD_LIB_DIR")).unwrap_or_else(|wrong| {
        eprintln!("{wrong}");
        process::exit(1);
    });
    println!("cargo:rustc-link-search=native={}", dir.display());
    for name in ARCHIVES {
        println!("cargo:rerun-if-changed={}", dir.join(format!("lib{name}.a")).display());
        println!("cargo:rustc-link-lib=static:-bundle={name}");
    }
}

const ARCHIVES: [&str; 2] = ["board", "laboratory"];

/// The folder that has the archives, or what is wrong with it.
pub fn folder(dir: Option<OsString>) -> Result<PathBuf, String> {
    let Some(dir) = dir.filter(|dir| !dir.is_empty()).map(PathBuf::from) else {
        return Err("BOARD_LIB_DIR is not set: the feature `archive` links libboard.a and liblaboratory.a there".into());
    };
    if !dir.is_dir() {
        return Err(format!("BOARD_LIB_DIR: {} is not a folder", dir.display()));
    }
    for name in ARCHIVES {
        if !dir.join(format!("lib{name}.a")).is_file() {
            return Err(format!(
                "BOARD_LIB_DIR: no lib{name}.a in {}; `rt lib` in crates/{name} writes it",
                dir.display()
            ));
        }
    }
    Ok(dir)
}
