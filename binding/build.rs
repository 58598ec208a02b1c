//! Finds the static library and has whoever depends on this linked with it: the file that LANEGRAVEL_LIB
//! names, or else the one that ./lanegravel lays into build/, or else the one of `rt lib`.

use std::env;
use std::path::{self, Path, PathBuf};

const PLACES: [&str; 2] = ["build", "crates/lanegravel/out"];

fn main() {
    let binding = Path::new(env!("CARGO_MANIFEST_DIR"));
    let root = binding.parent().unwrap_or(binding);
    println!("cargo::rerun-if-env-changed=LANEGRAVEL_LIB");
    let looked_at: Vec<PathBuf> = match env::var_os("LANEGRAVEL_LIB") {
        Some(file) => vec![path::absolute(&file).unwrap_or(file.into())],
        None => PLACES
            .map(|place| root.join(place).join("liblanegravel.a"))
            .into(),
    };
    for file in &looked_at {
        println!("cargo::rerun-if-changed={}", file.display());
    }
    let found = looked_at.iter().find(|file| file.is_file());
    if found.is_none() {
        how_to_build(&looked_at);
    }
    link(found.unwrap_or(&looked_at[0]));
}

fn link(library: &Path) {
    let folder = library.parent().unwrap_or(Path::new("."));
    let name = library.file_name().unwrap_or_default();
    println!("cargo::rustc-link-search=native={}", folder.display());
    println!(
        "cargo::rustc-link-lib=static:+verbatim={}",
        name.to_string_lossy()
    );
}

/// A warning and not a failure: the lints and the documentation need no library.
fn how_to_build(looked_at: &[PathBuf]) {
    let places: Vec<String> = looked_at.iter().map(|f| f.display().to_string()).collect();
    for line in [
        &format!("no static library at {}", places.join(" nor at ")),
        "without it nothing can be linked; to build it, every proof checked, which takes some minutes:",
        "    rt lib    in crates/lanegravel",
        "to use one that lies elsewhere, set LANEGRAVEL_LIB to its whole path",
    ] {
        println!("cargo::warning={line}");
    }
}
