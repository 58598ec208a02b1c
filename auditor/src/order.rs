//! The order in which what is reached is read: each definition behind all that it names.

use std::collections::{BTreeMap, BTreeSet};

use crate::project::{Crate, Project};
use crate::reach::Reached;
use crate::resolve::{Id, Part};

type Key = (usize, Part, usize, usize);

/// The items from the bottom: crates as they stand in crates.txt, in each first the structs and enums,
/// then the definitions as the files stand under each other.
pub fn bottom_up(project: &Project, reached: &Reached) -> Vec<Id> {
    let ranks: Vec<BTreeMap<&str, usize>> = project.crates.iter().map(ranks).collect();
    let key = |id: &Id| -> Key {
        let rank = ranks[id.krate].get(id.module.as_str()).copied();
        (id.krate, id.part, rank.unwrap_or(usize::MAX), id.index)
    };
    let mut sorted: Vec<&Id> = reached.items.keys().collect();
    sorted.sort_by_key(|id| (key(id), id.module.clone()));
    let mut order = Vec::new();
    let mut done = BTreeSet::new();
    for id in sorted {
        visit(id, reached, &key, &mut done, &mut order);
    }
    order
}

/// What an item names stands before it.
fn visit<'a>(
    id: &'a Id,
    reached: &'a Reached,
    key: &dyn Fn(&Id) -> Key,
    done: &mut BTreeSet<&'a Id>,
    order: &mut Vec<Id>,
) {
    if !done.insert(id) {
        return;
    }
    let mut named: Vec<&Id> = reached.items[id].iter().collect();
    named.sort_by_key(|id| key(id));
    for below in named {
        visit(below, reached, key, done, order);
    }
    order.push(id.clone());
}

/// The modules of a crate's specs, each behind those that it uses.
fn ranks(krate: &Crate) -> BTreeMap<&str, usize> {
    let mut ranks = BTreeMap::new();
    let listed = krate.specs.get("Lib").map_or(&[][..], |f| &f.modules);
    for module in listed {
        rank(krate, module, &mut ranks);
    }
    ranks
}

fn rank<'a>(krate: &'a Crate, module: &str, ranks: &mut BTreeMap<&'a str, usize>) {
    let Some((module, file)) = krate.specs.get_key_value(module) else {
        return;
    };
    if ranks.contains_key(module.as_str()) {
        return;
    }
    let own = format!("Rattle.{}.specs.", krate.name);
    for used in &file.uses {
        if let Some(below) = used.module.strip_prefix(&own) {
            rank(krate, below, ranks);
        }
    }
    ranks.insert(module, ranks.len());
}
