//! Says where the verified archive is: below the repository's target folder, where host/archive/make puts it, or in the folder that
//! ETZVANUL_ARCHIVE_FOLDER names.

use std::env;
use std::path::{Path, PathBuf};

const FOLDER_VARIABLE: &str = "ETZVANUL_ARCHIVE_FOLDER";

fn main() {
    let here = env::var_os("CARGO_MANIFEST_DIR").expect("cargo names the package's folder");
    let usual = Path::new(&here).join("../../target/staticlib");
    let folder = env::var_os(FOLDER_VARIABLE).map_or(usual, PathBuf::from);
    println!("cargo:rerun-if-env-changed={FOLDER_VARIABLE}");
    println!("cargo:rerun-if-changed={}", folder.join("libetzvanul.a").display());
    println!("cargo:rustc-link-search=native={}", folder.display());
    println!("cargo:rustc-link-lib=static=etzvanul");
}
