//! Everything that a contract reaches, by the names in types and bodies.

use std::collections::{BTreeMap, BTreeSet};

use crate::kit;
use crate::problem::Problem;
use crate::project::Project;
use crate::resolve::{Id, Part, Scope, Target};
use crate::rt;
use crate::walk::{self, Said};

#[derive(Default)]
pub struct Reached {
    /// each item with the items that it names
    pub items: BTreeMap<Id, BTreeSet<Id>>,
    /// definitions of the kit, by module and name
    pub kit: BTreeSet<(String, String)>,
    pub problems: Vec<Problem>,
    /// projections, with their places: each must be a field of something reached
    fields: BTreeMap<String, (String, usize)>,
    /// fields of records without a name
    unnamed: BTreeSet<String>,
}

/// An exported function, by its crate, module and place there.
#[derive(Clone, Debug)]
pub struct Call {
    pub krate: usize,
    pub module: String,
    pub index: usize,
}

impl Call {
    pub fn file<'a>(&self, project: &'a Project) -> &'a rt::File {
        &project.crates[self.krate].sources[&self.module]
    }

    pub fn function<'a>(&self, project: &'a Project) -> &'a rt::Function {
        &self.file(project).functions[self.index]
    }
}

/// The exported functions of a crate, by module.
pub fn exported(project: &Project, krate: &str) -> Vec<Call> {
    let Some(krate) = project.find(krate) else {
        return Vec::new();
    };
    let mut found = Vec::new();
    for (module, file) in &project.crates[krate].sources {
        for (index, function) in file.functions.iter().enumerate() {
            if function.exported {
                found.push(Call {
                    krate,
                    module: module.clone(),
                    index,
                });
            }
        }
    }
    found
}

/// What the contracts of some calls reach.
pub fn reach(project: &Project, calls: &[Call]) -> Reached {
    let mut reached = Reached::default();
    let mut open = Vec::new();
    for call in calls {
        open.extend(reached.contract(project, call));
    }
    while let Some(id) = open.pop() {
        if reached.items.contains_key(&id) {
            continue;
        }
        let named = match id.part {
            Part::Source => reached.types(project, id.krate, project.source(&id), &id),
            _ => reached.declaration(project, &id),
        };
        open.extend(named.iter().cloned());
        reached.items.insert(id, named);
    }
    if reached.problems.is_empty() {
        reached.check_fields(project);
    }
    reached.problems.sort();
    reached.problems.dedup();
    reached
}

impl Reached {
    fn contract(&mut self, project: &Project, call: &Call) -> BTreeSet<Id> {
        let (file, function) = (call.file(project), call.function(project));
        let scope = Scope {
            krate: call.krate,
            own: None,
            uses: &file.ghosts,
            clause: true,
        };
        let is_constructor = |name: &str| project.is_constructor(&scope, name);
        let mut named = self.paths(project, call.krate, file, &function.types);
        for clause in &function.ensures {
            let tokens = &clause.tokens;
            let said = walk::clause(&file.path, tokens, &function.parameters, &is_constructor);
            named.extend(self.resolve(project, &scope, &file.path, said));
        }
        named
    }

    fn declaration(&mut self, project: &Project, id: &Id) -> BTreeSet<Id> {
        let file = project.antt(id);
        let scope = Scope {
            krate: id.krate,
            own: Some((id.part, &id.module, file)),
            uses: &file.uses,
            clause: false,
        };
        let is_constructor = |name: &str| project.is_constructor(&scope, name);
        let said = walk::declaration(file, id.index, &is_constructor);
        self.problems.extend(file.unread.iter().cloned());
        let mut named = self.resolve(project, &scope, &file.path, said);
        named.remove(id);
        named
    }

    fn resolve(
        &mut self,
        project: &Project,
        scope: &Scope<'_>,
        path: &str,
        said: Said,
    ) -> BTreeSet<Id> {
        self.problems.extend(said.problems);
        self.unnamed.extend(said.unnamed);
        for (field, line) in said.fields {
            self.fields.entry(field).or_insert((path.to_string(), line));
        }
        for name in &said.unfolded {
            if let Err(text) = project.resolve(scope, &name.path) {
                self.problems.push(Problem::new(path, name.line, text));
            }
        }
        let mut named = BTreeSet::new();
        for name in said.names {
            match project.resolve(scope, &name.path) {
                Ok(targets) => {
                    for target in targets {
                        match target {
                            Target::Item(id) => drop(named.insert(id)),
                            Target::Kit(module, name) => drop(self.kit.insert((module, name))),
                        }
                    }
                }
                Err(text) => self.problems.push(Problem::new(path, name.line, text)),
            }
        }
        named
    }

    fn types(&mut self, project: &Project, krate: usize, file: &rt::File, id: &Id) -> BTreeSet<Id> {
        let mut named = self.paths(project, krate, file, &file.structs[id.index].types);
        named.remove(id);
        named
    }

    /// Structs and enums by their paths in a source file.
    fn paths(
        &mut self,
        project: &Project,
        krate: usize,
        file: &rt::File,
        types: &[(Vec<String>, usize)],
    ) -> BTreeSet<Id> {
        let mut named = BTreeSet::new();
        for (path, line) in types {
            match struct_of(project, krate, file, path) {
                Some(id) => drop(named.insert(id)),
                None => {
                    let text = format!("the type `{}` can't be resolved", path.join("::"));
                    self.problems.push(Problem::new(&file.path, *line, text));
                }
            }
        }
        named
    }

    /// A projection whose field no reached record has would leave out what it reads from.
    fn check_fields(&mut self, project: &Project) {
        let known: BTreeSet<String> = self
            .items
            .keys()
            .flat_map(|id| project.members(&Target::Item(id.clone())))
            .chain(self.unnamed.iter().cloned())
            .collect();
        for (field, (path, line)) in &self.fields {
            let numeral = field.starts_with(|c: char| c.is_ascii_digit());
            if !numeral && !known.contains(field) && !kit::FIELDS.contains(&field.as_str()) {
                let text = format!("`.{field}` is a field of nothing that is reached");
                self.problems.push(Problem::new(path, *line, text));
            }
        }
    }
}

/// A type's path: declared in the file itself, brought by `use`, or from a crate on.
fn struct_of(project: &Project, krate: usize, file: &rt::File, path: &[String]) -> Option<Id> {
    let whole = match (path, file.uses.get(&path[0])) {
        ([_], Some(whole)) => whole.clone(),
        ([name], None) => {
            let sources = project.crates[krate].sources.iter();
            let (module, _) = sources.into_iter().find(|(_, f)| f.path == file.path)?;
            return project.struct_in(krate, module, name);
        }
        ([_, rest @ ..], Some(whole)) => [whole.as_slice(), rest].concat(),
        _ => path.to_vec(),
    };
    let (name, modules) = whole.split_last()?;
    let (first, rest) = modules.split_first()?;
    match first.as_str() {
        "crate" => project.struct_in(krate, &rest.join("::"), name),
        first => {
            let lower = project
                .find(first)
                .and_then(|k| project.struct_in(k, &rest.join("::"), name));
            lower.or_else(|| project.struct_in(krate, &modules.join("::"), name))
        }
    }
}
