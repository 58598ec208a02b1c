//! Lays out the tree that src/lib.rs compiles: a copy of each file of the Rust, unchanged, a copy
//! of each shim, and what is missing and only has to be there. Nothing is made where a file of the
//! Rust stands: neither a copy nor a new file goes over another. (No links: rt ci refuses a checkout
//! that has one, also below the folders that cargo makes.)

use std::error::Error;
use std::fs::File;
use std::io::Write;
use std::path::{Path, PathBuf};
use std::{env, fs, io};

/// Files of pixel/mod.rs that are not at hand, with the settings that params.rs names in each.
const ABSENT_MODULES: [(&str, Option<&str>); 13] = [
    ("content_type", None),
    ("coverage", Some("CoverageParams")),
    ("emboss", Some("EmbossParams")),
    ("handwriting", Some("HandwritingParams")),
    ("orientation", Some("OrientationParams")),
    ("photo", Some("PhotoParams")),
    ("qr", Some("QrParams")),
    ("qr_decode", None),
    ("qr_tables", None),
    ("quality", Some("QualityParams")),
    ("signature", Some("SignatureParams")),
    ("stamp", Some("StampParams")),
    ("thumb", Some("ThumbParams")),
];

fn main() -> Result<(), Box<dyn Error>> {
    println!("cargo::rerun-if-env-changed=LANEGRAVEL_RUST");
    let folder = env::var("LANEGRAVEL_RUST")
        .map_err(|_| "LANEGRAVEL_RUST is not set: it names the folder of the Rust")?;
    let rust = Path::new(&folder).join("crates/pagetriage-core/src");
    let params = fs::read_to_string(rust.join("params.rs"))
        .map_err(|e| format!("the Rust is not at hand: {}: {e}", rust.display()))?;

    let tree = PathBuf::from(env::var("OUT_DIR")?).join("tree");
    if tree.exists() {
        fs::remove_dir_all(&tree)?;
    }
    let src = tree.join("src");
    copy(&rust, &src)?;
    copy(
        &Path::new(&env::var("CARGO_MANIFEST_DIR")?).join("shims"),
        &src,
    )?;
    write_absent_modules(&src.join("pixel"))?;
    write_empty_defaults(&params, &tree.join("params"))
}

fn write_absent_modules(dir: &Path) -> Result<(), Box<dyn Error>> {
    for (module, settings) in ABSENT_MODULES {
        let text = settings.map_or(String::new(), |name| format!("absent_settings!({name});\n"));
        File::create_new(dir.join(module).with_extension("rs"))
            .map_err(|e| format!("pixel/{module}.rs is not absent: {e}"))?
            .write_all(text.as_bytes())?;
    }
    Ok(())
}

/// The files of default settings that params.rs includes: empty, and never read.
fn write_empty_defaults(params: &str, dir: &Path) -> Result<(), Box<dyn Error>> {
    fs::create_dir(dir)?;
    for rest in params.split("include_str!(\"../params/").skip(1) {
        let (name, _) = rest.split_once('"').ok_or("params.rs names no file")?;
        File::create_new(dir.join(name))?;
    }
    Ok(())
}

/// Copies each file below `from` to the same place below `to`.
fn copy(from: &Path, to: &Path) -> Result<(), Box<dyn Error>> {
    println!("cargo::rerun-if-changed={}", from.display());
    fs::create_dir_all(to)?;
    for entry in fs::read_dir(from)? {
        let entry = entry?;
        let (path, place) = (entry.path(), to.join(entry.file_name()));
        if path.is_dir() {
            copy(&path, &place)?;
        } else {
            io::copy(&mut File::open(&path)?, &mut File::create_new(&place)?)?;
        }
    }
    Ok(())
}
