//! Says where libegrynnol.a is: the directory in EGRYNNOL_LIB, or ../target/lib beside this crate.
//! It is compiled for x86-64, so that for another machine nothing is linked (`src/remote.rs`).

use std::env;
use std::path::{Path, PathBuf};

fn main() {
    println!("cargo:rerun-if-changed=build.rs");
    println!("cargo:rerun-if-env-changed=EGRYNNOL_LIB");
    let linked = env::var("CARGO_CFG_TARGET_ARCH").is_ok_and(|machine| machine == "x86_64");
    if env::var_os("CARGO_FEATURE_LIBRARY").is_none() || !linked {
        return;
    }
    let home = env::var_os("CARGO_MANIFEST_DIR").expect("cargo sets CARGO_MANIFEST_DIR");
    let home = Path::new(&home);
    let chosen = env::var_os("EGRYNNOL_LIB").unwrap_or_else(|| "../target/lib".into());
    let directory: PathBuf = home.join(chosen);
    println!("cargo:rustc-link-search=native={}", directory.display());
    println!("cargo:rerun-if-changed={}", directory.join("libegrynnol.a").display());
}
