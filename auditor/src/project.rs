//! The crates of the repository, their files, and where a module's file is.

use std::collections::BTreeMap;
use std::fs;
use std::path::{Path, PathBuf};

use crate::antt;
use crate::problem::Problem;
use crate::rt;

pub struct Crate {
    pub name: String,
    /// whether crates.txt builds it as a static library
    pub is_static: bool,
    /// the libraries that it uses, of the repository and of the kit
    pub uses: Vec<String>,
    /// the files of specs/ by module, `Closed` or `A.B`, and those of proofs/
    pub specs: BTreeMap<String, antt::File>,
    pub proofs: BTreeMap<String, antt::File>,
    /// the files of src/ by module, `a::b`, and the crate's root by the empty name
    pub sources: BTreeMap<String, rt::File>,
    pub edits: Vec<String>,
}

pub struct Project {
    pub root: PathBuf,
    /// in the order of crates.txt: each uses only crates before it
    pub crates: Vec<Crate>,
}

impl Project {
    /// Reads the crates that crates.txt lists.
    pub fn read(root: &Path) -> Result<Project, Problem> {
        let list = read_text(root, Path::new("crates.txt"))?;
        let names = list
            .lines()
            .map(|line| line.split('#').next().unwrap_or(""))
            .filter_map(|line| line.split_once(':'));
        let crates = names
            .map(|(head, uses)| read_crate(root, head, uses))
            .collect::<Result<_, _>>()?;
        Ok(Project {
            root: root.to_path_buf(),
            crates,
        })
    }

    pub fn find(&self, name: &str) -> Option<usize> {
        self.crates.iter().position(|c| c.name == name)
    }
}

impl Crate {
    pub fn is_program(&self) -> bool {
        let root = self.sources.get("");
        root.is_some_and(|f| f.path.ends_with("main.rt"))
    }
}

/// A file of the repository, by its path from the root.
pub fn read_text(root: &Path, path: &Path) -> Result<String, Problem> {
    fs::read_to_string(root.join(path))
        .map_err(|error| Problem::new(&path.display().to_string(), 0, error.to_string()))
}

/// A crate by its line of crates.txt, `name staticlib: low io`: the words before the colon, the first of
/// which is its name, and the libraries that it uses.
fn read_crate(root: &Path, head: &str, uses: &str) -> Result<Crate, Problem> {
    let mut words = head.split_whitespace();
    let name = words.next().unwrap_or("");
    let folder = Path::new("crates").join(name);
    let antt = |part: &str| {
        let files = files_below(root, &folder.join(part), "antt");
        let read = |(module, path): (Vec<String>, PathBuf)| {
            let text = read_text(root, &path)?;
            let file = antt::read(&path.display().to_string(), &text)?;
            Ok((module.join("."), file))
        };
        files.into_iter().map(read).collect::<Result<_, Problem>>()
    };
    let sources = files_below(root, &folder.join("src"), "rt");
    let source = |(module, path): (Vec<String>, PathBuf)| {
        let file = rt::read(&path.display().to_string(), &read_text(root, &path)?)?;
        let module = module.join("::");
        let is_root = module == "lib" || module == "main";
        Ok((if is_root { String::new() } else { module }, file))
    };
    let edits = files_below(root, &folder.join("must-fail"), "edit");
    Ok(Crate {
        name: name.to_string(),
        is_static: words.any(|w| w == "staticlib"),
        uses: uses.split_whitespace().map(str::to_string).collect(),
        specs: antt("specs")?,
        proofs: antt("proofs")?,
        sources: sources
            .into_iter()
            .map(source)
            .collect::<Result<_, Problem>>()?,
        edits: edits
            .into_iter()
            .map(|(module, _)| module.join("/"))
            .collect(),
    })
}

/// The files with an extension below a folder, by their path in it without the extension.
fn files_below(root: &Path, folder: &Path, extension: &str) -> Vec<(Vec<String>, PathBuf)> {
    let mut found = Vec::new();
    let mut open = vec![(Vec::new(), folder.to_path_buf())];
    while let Some((module, folder)) = open.pop() {
        let Ok(entries) = fs::read_dir(root.join(&folder)) else {
            continue;
        };
        for entry in entries.flatten() {
            let path = folder.join(entry.file_name());
            let mut module = module.clone();
            module.push(stem(&path));
            if root.join(&path).is_dir() {
                open.push((module, path));
            } else if path.extension().is_some_and(|e| e == extension) {
                found.push((module, path));
            }
        }
    }
    found.sort();
    found
}

fn stem(path: &Path) -> String {
    let stem = path.file_stem().unwrap_or_default();
    stem.to_string_lossy().into_owned()
}
