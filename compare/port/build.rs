//! Links the static library that `rt lib` writes in crates/capmarrow. CAPMARROW_LIB names its folder; without it the repository's is taken.

use std::env;
use std::path::{Path, PathBuf};

fn main() {
    println!("cargo:rerun-if-env-changed=CAPMARROW_LIB");
    let here = env::var("CARGO_MANIFEST_DIR").expect("cargo names the package's folder");
    let folder = env::var("CAPMARROW_LIB").map_or_else(|_| Path::new(&here).join("../../crates/capmarrow/out"), PathBuf::from);
    let library = folder.join("libcapmarrow.a");
    println!("cargo:rerun-if-changed={}", library.display());
    if !library.exists() {
        panic!("{} is not there: run `rt lib` in crates/capmarrow first", library.display());
    }
    if env::var("CARGO_CFG_TARGET_ARCH").as_deref() != Ok("x86_64") {
        panic!("the static library is for x86-64 programs: build for the target x86_64-unknown-linux-gnu");
    }
    println!("cargo:rustc-link-search=native={}", folder.display());
    println!("cargo:rustc-link-lib=static=capmarrow");
}
