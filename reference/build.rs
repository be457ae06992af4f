//! Hands archives to the linker, for the binaries `compare`, `bench`, `small`, `rounds`, `updates`
//! and `writings` alone.
//!
//! VANGPEAR_ARCHIVE_DIR is the archives' folder, VANGPEAR_ARCHIVE their names without `lib`
//! and `.a`, apart by spaces. Nothing is linked unless the feature `archive` is on.

use std::env;
use std::path::Path;

fn main() {
    println!("cargo:rerun-if-changed=build.rs");
    println!("cargo:rerun-if-env-changed=VANGPEAR_ARCHIVE_DIR");
    println!("cargo:rerun-if-env-changed=VANGPEAR_ARCHIVE");
    if env::var_os("CARGO_FEATURE_ARCHIVE").is_none() {
        return;
    }
    match (
        env::var("VANGPEAR_ARCHIVE_DIR"),
        env::var("VANGPEAR_ARCHIVE"),
    ) {
        (Ok(folder), Ok(names)) => {
            for name in names.split_whitespace() {
                hand_over(&Path::new(&folder).join(format!("lib{name}.a")));
            }
        }
        _ => println!(
            "cargo:warning=VANGPEAR_ARCHIVE_DIR and VANGPEAR_ARCHIVE are not both set, so nothing will link"
        ),
    }
}

/// Hands one archive to the linker.
fn hand_over(archive: &Path) {
    let archive = archive.canonicalize().unwrap_or(archive.to_path_buf());
    println!("cargo:rerun-if-changed={}", archive.display());
    for binary in ["compare", "bench", "small", "rounds", "updates", "writings"] {
        println!("cargo:rustc-link-arg-bin={binary}={}", archive.display());
    }
}
