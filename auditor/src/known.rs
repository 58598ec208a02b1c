//! Whether what a document names is there.

use std::collections::BTreeSet;
use std::fs;
use std::path::Path;

use crate::antt::Form;
use crate::docs::Thing;
use crate::kit;
use crate::project::{Crate, Project};

/// Every name that a document may say without naming its file, and the definitions and laws among them.
pub struct Known {
    names: BTreeSet<String>,
    declared: BTreeSet<String>,
    runs: Vec<String>,
}

/// Where the differential runs have their names.
const RUNS: &str = "tests/differential/driver/src/main.rs";

impl Known {
    pub fn new(project: &Project) -> Known {
        let mut names = BTreeSet::new();
        let mut declared = BTreeSet::new();
        for krate in &project.crates {
            names.insert(krate.name.clone());
            for (module, file) in krate.specs.iter().chain(&krate.proofs) {
                names.insert(module.clone());
                for declaration in &file.declarations {
                    declared.insert(declaration.name.clone());
                    names.insert(format!("{module}.{}", declaration.name));
                }
            }
            for (module, file) in &krate.sources {
                let structs = file.structs.iter();
                names.extend(structs.clone().map(|s| s.name.clone()));
                names.extend(structs.flat_map(|s| s.variants.clone()));
                names.extend(file.functions.iter().map(|f| f.name.clone()));
                names.extend(paths(krate, module, file));
            }
        }
        names.extend(declared.iter().cloned());
        let runs = runs(&project.root.join(RUNS));
        Known {
            names,
            declared,
            runs,
        }
    }

    /// What is wrong with a thing that a document names; none where it is there.
    pub fn fault(&self, project: &Project, thing: &Thing) -> Option<String> {
        match thing {
            Thing::File { krate, file } => {
                let there = project
                    .find(krate)
                    .is_some_and(|k| has_file(&project.crates[k], file));
                (!there).then(|| format!("crate `{krate}` has no file {file}"))
            }
            Thing::Definition { krate, file, name } => {
                let k = project.find(krate)?;
                let krate = &project.crates[k];
                (has_file(krate, file) && !has_definition(krate, file, name))
                    .then(|| format!("`{}` {file} has no `{name}`", krate.name))
            }
            Thing::Field {
                place,
                record,
                field,
            } => self.field(project, place, record, field),
            Thing::Declared(name) => (!self.declared.contains(name))
                .then(|| format!("there is no law or definition `{name}`")),
            Thing::Run(name) => (!self.runs.iter().any(|r| r.contains(name.as_str())))
                .then(|| format!("no differential run has {name} in its name")),
            Thing::Known(text) => {
                (!self.is_known(project, text)).then(|| format!("nothing here is called `{text}`"))
            }
            Thing::Edit { name, krate } => {
                let says = |k: &&Crate| krate.as_ref().is_none_or(|krate| &k.name == krate);
                let mut crates = project.crates.iter().filter(says);
                let there = crates.any(|k| k.edits.iter().any(|e| e == name));
                let of = krate
                    .as_ref()
                    .map_or(String::new(), |k| format!(" of `{k}`"));
                (!there).then(|| format!("there is no must-fail edit {name}{of}"))
            }
        }
    }

    fn field(
        &self,
        project: &Project,
        place: &Option<(String, String)>,
        record: &str,
        field: &str,
    ) -> Option<String> {
        let mut files = project.crates.iter().flat_map(|k| {
            let of = place.as_ref().filter(|(krate, _)| krate == &k.name);
            let files = k.specs.iter().chain(&k.proofs);
            files.filter(move |(module, _)| {
                place.is_none() || of.is_some_and(|(_, file)| file == *module)
            })
        });
        let there = files.any(|(_, file)| {
            file.declarations.iter().any(|d| {
                d.name == record && d.form == Form::Record && d.members.iter().any(|m| m.0 == field)
            })
        });
        (!there).then(|| format!("no record `{record}` has a field `.{field}`"))
    }

    fn is_known(&self, project: &Project, text: &str) -> bool {
        let first = text.split(' ').next().unwrap_or("");
        let path = first.trim_start_matches("./");
        let there = |p: String| !path.is_empty() && project.root.join(p).exists();
        WORDS.contains(&first)
            || kit::is_kit(first)
            || self.names.contains(first)
            || there(path.to_string())
            || there(format!("crates/{path}"))
    }
}

/// The names of the runs, `name: "detect",`.
fn runs(path: &Path) -> Vec<String> {
    let text = fs::read_to_string(path).unwrap_or_default();
    let quoted = |line: &str| {
        let name = line.trim().strip_prefix("name: \"")?.strip_suffix("\",")?;
        Some(name.to_string())
    };
    text.lines().filter_map(quoted).collect()
}

/// Words of the language, commands, the folders of a crate, and the Rust function that is followed.
const WORDS: [&str; 9] = [
    "requires",
    "ensures",
    "use",
    "rt",
    "specs/",
    "proofs/",
    "must-fail/",
    "src/",
    "detect_with",
];

/// A function, struct or module by its whole path, and by the path below its crate.
fn paths(krate: &Crate, module: &str, file: &crate::rt::File) -> Vec<String> {
    let below = if module.is_empty() {
        String::new()
    } else {
        format!("{module}::")
    };
    let functions = file.functions.iter().map(|f| &f.name);
    let items = functions.chain(file.structs.iter().map(|s| &s.name));
    let mut found: Vec<String> = items
        .flat_map(|name| {
            [
                format!("{below}{name}"),
                format!("{}::{below}{name}", krate.name),
            ]
        })
        .collect();
    found.push(format!("{}::{module}", krate.name));
    found
}

fn has_file(krate: &Crate, file: &str) -> bool {
    match file.strip_suffix(".rt") {
        Some(module) => krate.sources.contains_key(module),
        None => krate.specs.contains_key(file) || krate.proofs.contains_key(file),
    }
}

fn has_definition(krate: &Crate, file: &str, name: &str) -> bool {
    if let Some(module) = file.strip_suffix(".rt") {
        let file = &krate.sources[module];
        return file.structs.iter().any(|s| s.name == name)
            || file.functions.iter().any(|f| f.name == name);
    }
    let files = [krate.specs.get(file), krate.proofs.get(file)];
    files.into_iter().flatten().any(|file| {
        let mut declarations = file.declarations.iter();
        declarations.any(|d| d.name == name || d.members.iter().any(|m| m.0 == name))
    })
}
