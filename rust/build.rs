//! Links the proved static library, which `./library` in the root of the repository writes.

use std::env;
use std::path::PathBuf;

/// Names another folder to take the library from; a relative one starts at this package.
const FOLDER_VARIABLE: &str = "MEKORVAT_LIB";

/// Where the library for a processor is written.
fn usual_folder(processor: &str) -> PathBuf {
    let folder = PathBuf::from("../target/staticlib");
    match processor {
        "x86_64" => folder,
        _ => folder.join(processor),
    }
}

fn main() {
    let package = env::var_os("CARGO_MANIFEST_DIR").expect("cargo sets it for every build script");
    let processor = env::var("CARGO_CFG_TARGET_ARCH").expect("cargo sets it too");
    let named = env::var_os(FOLDER_VARIABLE).map(PathBuf::from);
    let folder = named.unwrap_or_else(|| usual_folder(&processor));
    let folder = PathBuf::from(package).join(folder);
    let library = folder.join("libboundary.a");
    println!("cargo::rerun-if-env-changed={FOLDER_VARIABLE}");
    println!("cargo::rerun-if-changed={}", library.display());
    if library.is_file() {
        println!("cargo::rustc-link-search=native={}", folder.display());
        println!("cargo::rustc-link-lib=static=boundary");
    } else {
        println!(
            "cargo::error=there is no {}: run `./library` in the root of the \
             repository, or name the folder of libboundary.a in {FOLDER_VARIABLE}",
            library.display()
        );
    }
}
