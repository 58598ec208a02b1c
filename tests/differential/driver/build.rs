//! Links the static library that LANEGRAVEL_TESTING_LIB names; the binding links the product's.

use std::env;
use std::path::PathBuf;

const NAME: &str = "LANEGRAVEL_TESTING_LIB";

fn main() -> Result<(), String> {
    println!("cargo::rerun-if-env-changed={NAME}");
    let library: PathBuf = env::var_os(NAME)
        .ok_or_else(|| format!("{NAME} is not set: it names a static library"))?
        .into();
    let (Some(folder), Some(name)) = (library.parent(), library.file_name()) else {
        return Err(format!("{NAME} names no file: {}", library.display()));
    };
    println!("cargo::rerun-if-changed={}", library.display());
    println!("cargo::rustc-link-search=native={}", folder.display());
    println!(
        "cargo::rustc-link-lib=static:+verbatim={}",
        name.to_string_lossy()
    );
    Ok(())
}
