//! What a name means: by its file's own declarations, its `use` lines, and what is open everywhere.

use crate::antt::{self, Form};
use crate::kit;
use crate::project::Project;
use crate::rt;
use crate::uses::Use;

#[derive(Clone, Copy, Debug, PartialEq, Eq, PartialOrd, Ord)]
pub enum Part {
    Source,
    Specs,
    Proofs,
}

/// A declaration of specs or proofs, or a struct or enum of a source file: crate, module and place.
#[derive(Clone, Debug, PartialEq, Eq, PartialOrd, Ord)]
pub struct Id {
    pub krate: usize,
    pub part: Part,
    pub module: String,
    pub index: usize,
}

#[derive(Clone, Debug, PartialEq, Eq)]
pub enum Target {
    Item(Id),
    /// a definition of the kit: its module and its name
    Kit(String, String),
}

/// Where a name stands: its crate, its file's own declarations, and what its header brings.
pub struct Scope<'a> {
    pub krate: usize,
    pub own: Option<(Part, &'a str, &'a antt::File)>,
    pub uses: &'a [Use],
    /// in a clause of a contract
    pub clause: bool,
}

enum Module<'a> {
    Kit,
    File(usize, Part, String, &'a antt::File),
    Declared(Id, &'a rt::Struct),
}

impl Project {
    pub fn antt(&self, id: &Id) -> &antt::File {
        let krate = &self.crates[id.krate];
        match id.part {
            Part::Proofs => &krate.proofs[&id.module],
            _ => &krate.specs[&id.module],
        }
    }

    pub fn source(&self, id: &Id) -> &rt::File {
        &self.crates[id.krate].sources[&id.module]
    }

    /// A module's file, or the struct that it is made from.
    fn module(&self, path: &str) -> Result<Module<'_>, String> {
        let unknown = || format!("there is no module `{path}`");
        if kit::is_kit(path) {
            return Ok(Module::Kit);
        }
        let rest = path.strip_prefix("Rattle.").ok_or_else(unknown)?;
        let (name, rest) = rest.split_once('.').ok_or_else(unknown)?;
        let krate = self.find(name).ok_or_else(unknown)?;
        if let Some(declared) = rest.strip_prefix("specs.declared.") {
            return self.declared(krate, declared).ok_or_else(unknown);
        }
        let (part, files, module) = match rest.split_once('.').ok_or_else(unknown)? {
            ("specs", module) => (Part::Specs, &self.crates[krate].specs, module),
            ("proofs", module) => (Part::Proofs, &self.crates[krate].proofs, module),
            _ => return Err(unknown()),
        };
        let file = files.get(module).ok_or_else(unknown)?;
        Ok(Module::File(krate, part, module.to_string(), file))
    }

    /// `sides.Sides`, made from the struct of that name in src/sides.rt; `TheVariants` may follow.
    fn declared(&self, krate: usize, path: &str) -> Option<Module<'_>> {
        let path = path.strip_suffix(".TheVariants").unwrap_or(path);
        let (module, name) = path.rsplit_once('.').unwrap_or(("", path));
        let id = self.struct_in(krate, &module.replace('.', "::"), name)?;
        let declared = &self.source(&id).structs[id.index];
        Some(Module::Declared(id, declared))
    }

    pub fn struct_in(&self, krate: usize, module: &str, name: &str) -> Option<Id> {
        let file = self.crates[krate].sources.get(module)?;
        let index = file.structs.iter().position(|s| s.name == name)?;
        Some(Id {
            krate,
            part: Part::Source,
            module: module.to_string(),
            index,
        })
    }

    /// What a module has under a name.
    fn named_in(&self, path: &str, name: &str) -> Result<Target, String> {
        let unknown = || format!("there is no `{name}` in `{path}`");
        match self.module(path)? {
            Module::Kit => Ok(Target::Kit(path.to_string(), name.to_string())),
            Module::Declared(id, declared) => {
                let known = declared.name == name || declared.variants.iter().any(|v| v == name);
                known.then_some(Target::Item(id)).ok_or_else(unknown)
            }
            Module::File(krate, part, module, file) => {
                if let Some(index) = declared_as(file, name) {
                    return Ok(Target::Item(Id {
                        krate,
                        part,
                        module,
                        index,
                    }));
                }
                let passed = file.uses.iter().find(|u| u.public && u.local == name);
                let passed = passed.ok_or_else(unknown)?;
                self.named_in(&passed.module, passed.name.as_deref().unwrap_or(name))
            }
        }
    }

    /// What a name without a dot means; an operator is named by any of its parts.
    fn single(&self, scope: &Scope<'_>, name: &str) -> Result<Vec<Target>, String> {
        let exact: fn(&str, &str) -> bool = |whole, name| whole == name;
        for same in [exact, kit::is_part] {
            let mut found = self.own(scope, name, same);
            for item in scope.uses.iter().filter(|u| same(&u.local, name)) {
                if let Some(inner) = &item.name {
                    found.push(self.named_in(&item.module, inner)?);
                }
            }
            found.dedup();
            if !found.is_empty() {
                return Ok(found);
            }
        }
        let lent = kit::named(&kit::LENT, name).filter(|_| scope.clause);
        let open = lent.map(|n| (kit::CLAUSE, n));
        let open = open.or_else(|| kit::named(&kit::PRELUDE, name).map(|n| ("Prim", n)));
        let target = open.map(|(module, n)| vec![Target::Kit(module.to_string(), n.to_string())]);
        target.ok_or_else(|| format!("`{name}` can't be resolved"))
    }

    fn own(&self, scope: &Scope<'_>, name: &str, same: fn(&str, &str) -> bool) -> Vec<Target> {
        let Some((part, module, file)) = scope.own else {
            return Vec::new();
        };
        let says = |d: &antt::Declaration| {
            let member = d.form == Form::Data && d.members.iter().any(|(m, _)| same(m, name));
            same(&d.name, name) || member
        };
        let found = file
            .declarations
            .iter()
            .enumerate()
            .filter(|(_, d)| says(d));
        found
            .map(|(index, _)| {
                Target::Item(Id {
                    krate: scope.krate,
                    part,
                    module: module.to_string(),
                    index,
                })
            })
            .collect()
    }

    /// What a name or a path means: a member of a type, a name of a module, or a field of a definition.
    pub fn resolve(&self, scope: &Scope<'_>, path: &[String]) -> Result<Vec<Target>, String> {
        let [head, rest @ ..] = path else {
            return Ok(Vec::new());
        };
        let single = self.single(scope, head);
        if rest.is_empty() {
            return single;
        }
        let alias = scope
            .uses
            .iter()
            .find(|u| u.name.is_none() && &u.local == head);
        let is_member = |t: &Target| self.members(t).iter().any(|m| m == &rest[0]);
        match (single, alias) {
            (Ok(found), _) if found.iter().any(is_member) => Ok(found),
            (_, Some(alias)) => {
                let (name, below) = rest.split_last().expect("not empty");
                let modules: Vec<&str> = std::iter::once(alias.module.as_str())
                    .chain(below.iter().map(String::as_str))
                    .collect();
                Ok(vec![self.named_in(&modules.join("."), name)?])
            }
            (Ok(found), None) => Ok(found),
            (Err(_), None) => {
                let (name, modules) = path.split_last().expect("not empty");
                Ok(vec![self.named_in(&modules.join("."), name)?])
            }
        }
    }

    /// The fields, constructors or variants of a type.
    pub fn members(&self, target: &Target) -> Vec<String> {
        match target {
            Target::Kit(..) => Vec::new(),
            Target::Item(id) if id.part == Part::Source => {
                let declared = &self.source(id).structs[id.index];
                let all = declared.fields.iter().chain(&declared.variants);
                all.cloned().collect()
            }
            Target::Item(id) => {
                let members = &self.antt(id).declarations[id.index].members;
                members.iter().map(|(name, _)| name.clone()).collect()
            }
        }
    }

    /// In a pattern a constructor is said, and any other name is bound.
    pub fn is_constructor(&self, scope: &Scope<'_>, name: &str) -> bool {
        let Ok(found) = self.single(scope, name) else {
            return false;
        };
        found.iter().any(|target| match target {
            Target::Kit(_, name) => kit::CONSTRUCTORS.contains(&name.as_str()),
            Target::Item(id) if id.part == Part::Source => {
                let declared = &self.source(id).structs[id.index];
                declared.variants.iter().any(|v| v == name)
            }
            Target::Item(id) => {
                let declaration = &self.antt(id).declarations[id.index];
                let is = |(m, _): &(String, usize)| kit::is_part(m, name);
                declaration.form == Form::Data && declaration.members.iter().any(is)
            }
        })
    }
}

/// The declaration with this name or this constructor.
fn declared_as(file: &antt::File, name: &str) -> Option<usize> {
    file.declaration(name).or_else(|| {
        let constructs = |d: &antt::Declaration| {
            d.form == Form::Data && d.members.iter().any(|(m, _)| m == name)
        };
        file.declarations.iter().position(constructs)
    })
}
