//! What is reached, as a text to read.

use std::collections::{BTreeMap, BTreeSet};
use std::fmt::Write;
use std::fs;
use std::path::Path;

use crate::check::{HEADER, PROMISES};
use crate::docs::{self, Thing};
use crate::header;
use crate::log;
use crate::order;
use crate::problem::Problem;
use crate::project::{Project, read_text};
use crate::reach::{Call, Reached};
use crate::resolve::{Id, Part};

/// The lines of an item: its file, where its comment, its text and its end are, and its name.
struct Place<'a> {
    path: &'a str,
    lines: &'a [String],
    comment: usize,
    first: usize,
    last: usize,
    name: &'a str,
}

/// How much there is to read.
#[derive(Debug, Default, PartialEq, Eq)]
pub struct Count {
    pub definitions: usize,
    pub lines: usize,
    pub comments: usize,
    pub structs: usize,
    pub struct_lines: usize,
    pub kit: usize,
}

/// Sentences of the demands and of document 01, by the crate, the file and the name that says them.
type Sentences = BTreeMap<(String, String, String), Vec<String>>;

fn place<'a>(project: &'a Project, id: &Id) -> Place<'a> {
    if id.part == Part::Source {
        let file = project.source(id);
        let s = &file.structs[id.index];
        return Place {
            path: &file.path,
            lines: &file.lines,
            comment: s.comment,
            first: s.first,
            last: s.last,
            name: &s.name,
        };
    }
    let file = project.antt(id);
    let d = &file.declarations[id.index];
    Place {
        path: &file.path,
        lines: &file.lines,
        comment: d.comment,
        first: d.first,
        last: d.last,
        name: &d.name,
    }
}

/// The sentences that docs/PROMISES.md has beside each definition.
fn sentences(project: &Project) -> Result<Sentences, Problem> {
    let text = read_text(&project.root, Path::new(PROMISES))?;
    let mut found = Sentences::new();
    for row in docs::rows(&text) {
        let [sentence, definition, _, _] = row.cells.as_slice() else {
            continue;
        };
        for mention in docs::mentions(project, row.line, definition) {
            let place = match mention.thing {
                Thing::Definition { krate, file, name } => (krate, file, name),
                Thing::Field {
                    place: Some((krate, file)),
                    record,
                    ..
                } => (krate, file, record),
                _ => continue,
            };
            let said = format!("{}: {sentence}", row.section);
            let all = found.entry(place).or_default();
            if !all.contains(&said) {
                all.push(said);
            }
        }
    }
    Ok(found)
}

/// A line that is neither empty nor a comment.
fn is_text(line: &str) -> bool {
    let line = line.trim_start();
    !line.is_empty() && !line.starts_with("--") && !line.starts_with("//")
}

fn is_comment(line: &str) -> bool {
    let line = line.trim_start();
    line.starts_with("--") || line.starts_with("//")
}

/// The blocks with parameters that an item stands in, from the outermost.
fn blocks(project: &Project, id: &Id) -> Vec<usize> {
    let mut found = Vec::new();
    if id.part != Part::Source {
        let file = project.antt(id);
        let mut block = file.declarations[id.index].block;
        while let Some(index) = block {
            found.push(index);
            block = file.blocks[index].outer;
        }
    }
    found.reverse();
    found
}

pub fn count(project: &Project, reached: &Reached) -> Count {
    let mut count = Count {
        kit: reached.kit.len(),
        ..Count::default()
    };
    let mut seen = BTreeSet::new();
    for id in reached.items.keys() {
        let place = place(project, id);
        let mut lines: Vec<&String> = place.lines[place.comment - 1..place.last].iter().collect();
        for block in blocks(project, id) {
            if seen.insert((place.path, block)) {
                let block = &project.antt(id).blocks[block];
                lines.extend(&place.lines[block.first - 1..block.last]);
            }
        }
        let text = lines.iter().filter(|l| is_text(l)).count();
        if id.part == Part::Source {
            count.structs += 1;
            count.struct_lines += text;
        } else {
            count.definitions += 1;
            count.lines += text;
            count.comments += lines.iter().filter(|l| is_comment(l)).count();
        }
    }
    count
}

impl Count {
    pub fn sentence(&self) -> String {
        format!(
            "{} definitions in {} lines, with {} lines of comments; {} structs and enums in {} lines; {} names of the kit",
            self.definitions, self.lines, self.comments, self.structs, self.struct_lines, self.kit
        )
    }
}

/// Names and places alone.
pub fn index(project: &Project, order: &[Id], reached: &Reached) -> String {
    let mut out = String::new();
    for id in order {
        let place = place(project, id);
        let _ = writeln!(out, "{}:{}: {}", place.path, place.first, place.name);
    }
    let _ = writeln!(out, "{}", count(project, reached).sentence());
    out
}

/// All of it: declarations and contracts of the calls, definitions, names of the kit, and what is assumed.
pub fn whole(
    project: &Project,
    calls: &[Call],
    order: &[Id],
    reached: &Reached,
) -> Result<String, Problem> {
    let mut out = String::new();
    contracts(project, calls, &mut out)?;
    definitions(project, order, &mut out)?;
    kit(reached, &mut out);
    assumed(project, &mut out);
    let _ = writeln!(out, "\n{}", count(project, reached).sentence());
    Ok(out)
}

fn contracts(project: &Project, calls: &[Call], out: &mut String) -> Result<(), Problem> {
    let text = read_text(&project.root, Path::new(HEADER))?;
    for call in calls {
        let (file, function) = (call.file(project), call.function(project));
        let declared = header::declaration(&text, &function.name).ok_or_else(|| {
            Problem::new(HEADER, 0, format!("`{}` isn't declared", function.name))
        })?;
        let _ = writeln!(out, "==== {}", function.name);
        let _ = writeln!(out, "\n---- {HEADER}:{}", declared.line);
        lines(out, declared.text.iter().copied());
        let _ = writeln!(out, "\n---- {}:{}, its contract", file.path, function.first);
        let range = function.comment - 1..function.last;
        lines(out, file.lines[range].iter().map(String::as_str));
        out.push('\n');
    }
    Ok(())
}

fn lines<'a>(out: &mut String, lines: impl Iterator<Item = &'a str>) {
    for line in lines {
        out.push_str(line);
        out.push('\n');
    }
}

fn definitions(project: &Project, order: &[Id], out: &mut String) -> Result<(), Problem> {
    let sentences = sentences(project)?;
    let mut krate = None;
    let mut around: (String, Vec<usize>) = (String::new(), Vec::new());
    for id in order {
        if krate != Some(id.krate) {
            let _ = writeln!(out, "==== crate {}\n", project.crates[id.krate].name);
            krate = Some(id.krate);
        }
        let place = place(project, id);
        let _ = writeln!(out, "---- {}:{} {}", place.path, place.first, place.name);
        for sentence in said(project, id, place.name, &sentences) {
            let _ = writeln!(out, "   | {sentence}");
        }
        let inside = (place.path.to_string(), blocks(project, id));
        if around != inside {
            for &block in &inside.1 {
                let block = &project.antt(id).blocks[block];
                lines(
                    out,
                    place.lines[block.first - 1..block.last]
                        .iter()
                        .map(String::as_str),
                );
            }
            around = inside;
        }
        let text = &place.lines[place.comment - 1..place.last];
        lines(
            out,
            text.iter().map(String::as_str).filter(|l| !l.is_empty()),
        );
        out.push('\n');
    }
    Ok(())
}

fn said<'a>(project: &Project, id: &Id, name: &str, sentences: &'a Sentences) -> &'a [String] {
    let file = match id.part {
        Part::Source => format!("{}.rt", id.module),
        _ => id.module.clone(),
    };
    let key = (
        project.crates[id.krate].name.clone(),
        file,
        name.to_string(),
    );
    sentences.get(&key).map_or(&[], Vec::as_slice)
}

/// The kit's definitions by module.
fn kit(reached: &Reached, out: &mut String) {
    let mut modules: BTreeMap<&str, Vec<&str>> = BTreeMap::new();
    for (module, name) in &reached.kit {
        modules.entry(module).or_default().push(name);
    }
    out.push_str("==== of the kit, by name\n\n");
    for (module, names) in modules {
        let _ = writeln!(out, "{module}: {}", names.join(", "));
    }
}

/// What rests on nothing here.
fn assumed(project: &Project, out: &mut String) {
    out.push_str(
        "\n==== assumed\n
Of the crates nothing: no axiom, no hole, no foreign function, and no `requires` of an exported
function (tests/audit/run looks for them). Of the kit: its logic with the definitions above, the machine
that they speak of, and its compiler. Of the caller: what the first comment of include/lanegravel.h says
of lists, floats and the stack.
",
    );
    let path = log::of_library("lanegravel");
    let text = fs::read_to_string(project.root.join(&path)).unwrap_or_default();
    let verdict = text.lines().rfind(|l| l.starts_with("logic="));
    let _ = match verdict {
        Some(line) => writeln!(out, "rt of lanegravel, when it was last built: {line}"),
        None => writeln!(out, "rt of lanegravel: no verdict stands in {path}"),
    };
}

/// The order of reading: from the bottom, or from the top.
pub fn reading_order(project: &Project, reached: &Reached, top: bool) -> Vec<Id> {
    let mut order = order::bottom_up(project, reached);
    if top {
        order.reverse();
    }
    order
}
