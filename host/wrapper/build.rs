//! Links the proved library, `liblorvisk.a`, as `rt lib --cpu x86-64` in `crates/lorvisk` writes it.

use std::path::Path;
use std::process::exit;

fn main() {
    if std::env::var("CARGO_CFG_TARGET_ARCH").as_deref() != Ok("x86_64") {
        eprintln!("the proved library is x86-64: build for --target x86_64-unknown-linux-gnu");
        exit(1);
    }
    let folder = Path::new(env!("CARGO_MANIFEST_DIR")).join("../../crates/lorvisk/out");
    let archive = folder.join("liblorvisk.a");
    println!("cargo:rerun-if-changed={}", archive.display());
    if !archive.is_file() {
        eprintln!(
            "{} is not there: write it with `rt lib --cpu x86-64` in crates/lorvisk",
            archive.display()
        );
        exit(1);
    }
    println!("cargo:rustc-link-search=native={}", folder.display());
    println!("cargo:rustc-link-lib=static=lorvisk");
}
