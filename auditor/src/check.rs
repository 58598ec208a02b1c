//! What the gate can't show by itself: that the documents name what is there, that the exported
//! functions promise something and ask nothing, and that nothing is assumed.

use std::path::Path;

use crate::antt;
use crate::docs;
use crate::header;
use crate::known::Known;
use crate::lex::Token;
use crate::log;
use crate::problem::Problem;
use crate::project::{Project, read_text};
use crate::reach::{self, Call};
use crate::rt;
use crate::words::words;

pub const HEADER: &str = "include/lanegravel.h";
pub const PROMISES: &str = "docs/PROMISES.md";
const DOCUMENTS: [&str; 2] = [PROMISES, "docs/AUDIT.md"];

#[derive(Default)]
pub struct Report {
    pub problems: Vec<Problem>,
    pub notes: Vec<String>,
}

/// What is checked. While crates are missing only a part can be.
#[derive(Clone, Copy, Debug, PartialEq, Eq)]
pub enum Part {
    /// that nothing is assumed, in the sources and in rt's logs
    Sources,
    /// the exported functions of the library, and what their contracts reach
    Exported,
    /// what the documents name
    Documents,
}

pub const PARTS: [(&str, Part); 3] = [
    ("sources", Part::Sources),
    ("exported", Part::Exported),
    ("documents", Part::Documents),
];

/// All checks, or some of them, over the exported functions of the library.
pub fn check(project: &Project, calls: &[Call], parts: &[Part]) -> Result<Report, Problem> {
    let mut report = Report::default();
    if parts.contains(&Part::Exported) {
        report.reached(project, calls);
        report.exported(project, calls)?;
    }
    if parts.contains(&Part::Documents) {
        report.documents(project)?;
    }
    if parts.contains(&Part::Sources) {
        report.sources(project);
        report.logs(project, false);
    }
    report.problems.sort();
    report.problems.dedup();
    Ok(report)
}

/// rt's logs alone, with a verdict of every library: behind `rt ci` and the builds of the static libraries.
pub fn logs(project: &Project) -> Report {
    let mut report = Report::default();
    report.logs(project, true);
    report
}

impl Report {
    /// Each contract alone reaches nothing that can't be resolved.
    fn reached(&mut self, project: &Project, calls: &[Call]) {
        for call in calls {
            let reached = reach::reach(project, std::slice::from_ref(call));
            self.problems.extend(reached.problems);
        }
    }

    /// Every exported function has an `ensures` and no `requires`, and the header declares it.
    fn exported(&mut self, project: &Project, calls: &[Call]) -> Result<(), Problem> {
        let header = read_text(&project.root, Path::new(HEADER))?;
        let mut declared = header::declared(&header, "lanegravel_");
        for call in calls {
            let (file, function) = (call.file(project), call.function(project));
            let mut wrong = |text: &str| {
                let text = format!("`{}` {text}", function.name);
                self.problems
                    .push(Problem::new(&file.path, function.first, text));
            };
            if function.ensures.is_empty() {
                wrong("has no `ensures`");
            }
            if !function.requires.is_empty() {
                wrong("has a `requires`");
            }
            if function.unread.is_some() {
                wrong("has a clause that isn't read");
            }
            if header::declaration(&header, &function.name).is_none() {
                wrong(&format!("isn't declared in {HEADER}"));
            }
            declared.retain(|name| name != &function.name);
        }
        for name in declared {
            let text = format!("`{name}` is declared and not exported");
            self.problems.push(Problem::new(HEADER, 0, text));
        }
        self.notes
            .push(format!("{} exported functions", calls.len()));
        Ok(())
    }

    fn documents(&mut self, project: &Project) -> Result<(), Problem> {
        let known = Known::new(project);
        for document in DOCUMENTS {
            let text = read_text(&project.root, Path::new(document))?;
            let mentions = mentions(project, &text);
            self.notes
                .push(format!("{document}: {} names", mentions.len()));
            for mention in mentions {
                if let Some(text) = known.fault(project, &mention.thing) {
                    let problem = Problem::new(document, mention.line, text);
                    self.problems.push(problem);
                }
            }
        }
        Ok(())
    }

    /// No hole, axiom, foreign function or `unsafe` in any crate, and no C: none of its own, and no library
    /// of the kit that has the contracts of C functions.
    fn sources(&mut self, project: &Project) {
        for krate in &project.crates {
            for library in krate.uses.iter().filter(|u| C.contains(&u.as_str())) {
                let text = format!("`{}` uses {library}, which is C", krate.name);
                self.problems.push(Problem::new("crates.txt", 0, text));
            }
            let own = format!("crates/{}/c", krate.name);
            if project.root.join(&own).exists() {
                self.problems.push(Problem::new(&own, 0, "C of its own"));
            }
            for file in krate.specs.values().chain(krate.proofs.values()) {
                self.problems.extend(assumed(file));
            }
            for file in krate.sources.values() {
                self.problems.extend(foreign(file));
            }
        }
        self.notes.push(format!("{} crates", project.crates.len()));
    }

    /// No library's verdict in rt's logs assumes anything. A log or a verdict that isn't there is left out,
    /// or with `all` that is wrong.
    fn logs(&mut self, project: &Project, all: bool) {
        let found = log::read(project);
        self.problems.extend(found.problems);
        self.notes.push(format!(
            "rt's logs: {} verdicts with nothing assumed, {} crates as an earlier rt ci proved them",
            found.read, found.kept
        ));
        if all {
            self.problems.extend(found.lacking);
        } else {
            let lacking = found.lacking.iter();
            self.notes.extend(lacking.map(|p| format!("left out: {p}")));
        }
    }
}

/// What a document names, in its text and in the cells of its tables but the first, which has the words
/// of the demands and of document 01.
fn mentions(project: &Project, text: &str) -> Vec<docs::Mention> {
    let mut found = Vec::new();
    for row in docs::rows(text) {
        for cell in &row.cells[1..] {
            found.extend(docs::mentions(project, row.line, cell));
        }
    }
    let mut fenced = false;
    for (index, line) in text.lines().enumerate() {
        fenced ^= line.starts_with("```");
        if !fenced && !line.starts_with(['|', ' ']) && !line.starts_with("```") {
            found.extend(docs::mentions(project, index + 1, line));
        }
    }
    found
}

/// Holes and axioms, those of the logic too, which `Prim.Axiom` has.
fn assumed(file: &antt::File) -> Vec<Problem> {
    let wrong = |token: &Token| match token.text.as_str() {
        text if text.starts_with('?') => Some("a hole"),
        "axiom" | "Axiom" => Some("an axiom"),
        _ => None,
    };
    let names = file.tokens.iter().filter(|t| t.is_name());
    names
        .filter_map(|t| Some(Problem::new(&file.path, t.line, wrong(t)?)))
        .collect()
}

/// The kit's libraries of C functions, whose contracts are taken as they are written.
const C: [&str; 2] = ["libc", "os"];

/// The attribute of an exported function: it claims only that its name is no other's.
const EXPORTED: &str = "#[unsafe(no_mangle)]";

/// Foreign functions, whose contracts nothing proves, and `unsafe`.
fn foreign(file: &rt::File) -> Vec<Problem> {
    let mut found = Vec::new();
    for (index, line) in file.lines.iter().enumerate() {
        let code = rt::code(line).replace(EXPORTED, "");
        let code = code.trim();
        let block = code.starts_with("extern ") || code.starts_with("pub extern \"C\" {");
        if block || words(code, index + 1).iter().any(|w| w.text == "unsafe") {
            let text = "a form that nothing proves".to_string();
            found.push(Problem::new(&file.path, index + 1, text));
        }
    }
    found
}
