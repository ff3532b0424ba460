//! Puts the Rust's files, unchanged, beside a root module that declares them. They are looked for beside the repository
//! at ../shared/docs/src, or in the folder that ROVE_SOURCE names; the folder has them under src/.

use std::path::{Path, PathBuf};
use std::{env, fs};

const FILES: [&str; 8] = [
    "random.rs",
    "tree.rs",
    "rates.rs",
    "speciation.rs",
    "dating.rs",
    "dating/process.rs",
    "mcmc/moves.rs",
    "mcmc/coupled.rs",
];

/// The root of the Rust's crate. Its own, and mcmc.rs, are not among the files.
const ROOT: &str = "
pub mod tree;
pub mod rates;
pub mod speciation;
pub mod dating;
pub mod mcmc {
    mod coupled;
    pub mod moves;
    pub use moves::Move;

    /// `scale`, which only mcmc can name.
    pub fn scale(value: &mut f64, upper: f64, factor: f64, random: &mut crate::random::Random) -> Option<f64> {
        moves::scale(value, upper, factor, random)
    }
}
";

fn main() {
    println!("cargo:rerun-if-env-changed=ROVE_SOURCE");
    let package = PathBuf::from(env::var_os("CARGO_MANIFEST_DIR").expect("cargo sets it"));
    let source = match env::var_os("ROVE_SOURCE") {
        Some(folder) => PathBuf::from(folder),
        None => package.join("../../../../shared/docs/src"),
    };
    let source = source.join("src");
    let out = PathBuf::from(env::var_os("OUT_DIR").expect("cargo sets it")).join("rust");
    for file in FILES {
        copy(&source.join(file), &out.join(file));
    }
    // `scripted` has a random.rs of its own.
    let own = if package.ends_with("reference") { "pub mod random;" } else { "" };
    fs::write(out.join("root.rs"), format!("{own}{ROOT}")).expect("the root is written");
}

fn copy(from: &Path, to: &Path) {
    println!("cargo:rerun-if-changed={}", from.display());
    let text = fs::read(from).unwrap_or_else(|fault| {
        panic!(
            "the Rust is not at hand: {}: {fault}. ROVE_SOURCE names the folder that has it under src/",
            from.display()
        )
    });
    fs::create_dir_all(to.parent().expect("a folder")).expect("the folder is made");
    fs::write(to, text).expect("the file is written");
}
