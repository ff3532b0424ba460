//! Links the one archive, librove.a, which the script hosts/archive makes: from target/archive of the repository, or from the
//! folder that ROVE_ARCHIVE names by its whole path.

use std::env;
use std::path::PathBuf;

fn main() {
    println!("cargo:rerun-if-env-changed=ROVE_ARCHIVE");
    let folder = match env::var_os("ROVE_ARCHIVE") {
        Some(folder) => PathBuf::from(folder),
        None => PathBuf::from(env::var_os("CARGO_MANIFEST_DIR").expect("cargo sets it"))
            .join("../../../target/archive"),
    };
    let archive = folder.join("librove.a");
    println!("cargo:rerun-if-changed={}", archive.display());
    if !archive.exists() {
        println!("cargo::error={} is not there; the script hosts/archive makes it", archive.display());
    }
    println!("cargo:rustc-link-search=native={}", folder.display());
    println!("cargo:rustc-link-lib=static=rove");
}
