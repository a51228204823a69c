//! Tells the linker where the proved archive is: in IGHZAMREL_LIB_DIR, else where `make lib` puts it in this
//! repository. That is x86-64 code, and there is none for another machine.

use std::path::PathBuf;
use std::{env, process};

const ARCHIVE: &str = "libighzamrel.a";

fn main() {
    println!("cargo:rerun-if-env-changed=IGHZAMREL_LIB_DIR");
    let folder = folder();
    let machine = env::var("CARGO_CFG_TARGET_ARCH").unwrap_or_default();
    if machine != "x86_64" && env::var_os("IGHZAMREL_LIB_DIR").is_none() {
        eprintln!("ighzamrel: `make lib` makes x86-64 code, and this build is for {machine}; IGHZAMREL_LIB_DIR may name a folder with another {ARCHIVE}");
        process::exit(1);
    }
    let archive = folder.join(ARCHIVE);
    println!("cargo:rerun-if-changed={}", archive.display());
    if !archive.is_file() {
        eprintln!(
            "ighzamrel: there is no {}; run `make lib` at the top of the repository, \
             or set IGHZAMREL_LIB_DIR to the folder that has {ARCHIVE}, by its whole path",
            archive.display()
        );
        process::exit(1);
    }
    println!("cargo:rustc-link-search=native={}", folder.display());
    println!("cargo:rustc-link-lib=static=ighzamrel");
}

fn folder() -> PathBuf {
    match env::var_os("IGHZAMREL_LIB_DIR") {
        Some(folder) => folder.into(),
        None => {
            let crate_folder = PathBuf::from(env::var_os("CARGO_MANIFEST_DIR").unwrap_or_default());
            crate_folder.join("../../target/lib")
        }
    }
}
