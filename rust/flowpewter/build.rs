//! Links the static library that `rt lib --cpu=x86-64` leaves in `crates/flowpewter/out`.

use std::path::PathBuf;

fn main() {
    let root = PathBuf::from(std::env::var("CARGO_MANIFEST_DIR").unwrap()).join("../..");
    let folder = root.join("crates/flowpewter/out");
    let library = folder.join("libflowpewter.a");
    println!("cargo:rerun-if-changed={}", library.display());
    if !library.exists() {
        panic!(
            "{} is not there: run `rt lib --cpu=x86-64` in crates/flowpewter first",
            library.display()
        );
    }
    println!("cargo:rustc-link-search=native={}", folder.display());
    println!("cargo:rustc-link-lib=static=flowpewter");
}
