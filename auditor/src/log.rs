//! What rt said of the crates here, as ./test and ./lanegravel keep it: the output of `rt ci`, and for each
//! static library that of `rt lib` in its folder, which counts what all crates below it assume.

use std::fs;

use crate::problem::Problem;
use crate::project::{Crate, Project};

/// The output of `rt ci`.
pub const CI: &str = "build/rt/ci.out";

/// The output of `rt lib` in a static library's folder.
pub fn of_library(name: &str) -> String {
    format!("build/rt/{name}.out")
}

/// What was found, and which logs or verdicts aren't there.
#[derive(Debug, Default)]
pub struct Logs {
    pub problems: Vec<Problem>,
    /// verdicts that were read, and crates that an earlier `rt ci` proved
    pub read: usize,
    pub kept: usize,
    pub lacking: Vec<Problem>,
}

/// A line of a log with its number.
type Line<'a> = (usize, &'a str);

/// No library's verdict counts an axiom or names a foreign function.
pub fn read(project: &Project) -> Logs {
    let mut logs = Logs::default();
    let text = |path: &str| fs::read_to_string(project.root.join(path)).unwrap_or_default();
    let ci = text(CI);
    if ci.is_empty() {
        logs.lacking.push(Problem::new(CI, 0, "isn't there"));
    } else {
        logs.whole(&ci);
        for krate in project.crates.iter().filter(|k| !k.is_program()) {
            logs.in_ci(krate, &ci);
        }
    }
    for krate in project.crates.iter().filter(|k| k.is_static) {
        let path = of_library(&krate.name);
        match verdict(numbered(&text(&path))) {
            Some(line) => logs.verdict(&path, line),
            None => {
                let text = format!("no verdict of `{}` stands here", krate.name);
                logs.lacking.push(Problem::new(&path, 0, text));
            }
        }
    }
    logs
}

impl Logs {
    /// What `rt ci` says of all crates at once: nothing failed, no handle is allowed, no C is taken as
    /// written, every must-fail edit could be tried.
    fn whole(&mut self, ci: &str) {
        let mut ok = false;
        for (line, text) in numbered(ci) {
            let said = text.strip_prefix("rt: ok; ");
            ok |= said.is_some_and(|s| s.starts_with("handles allowed: none;"));
            if said.is_some_and(counts_bad) {
                self.wrong(CI, line, "an edit of must-fail/ is bad");
            }
            if text.starts_with("rt: C is allowed") {
                self.wrong(CI, line, "C whose contracts nothing proves");
            }
        }
        if !ok {
            self.wrong(CI, 0, "no line `rt: ok; handles allowed: none; ..`");
        }
    }

    fn in_ci(&mut self, krate: &Crate, ci: &str) {
        let name = &krate.name;
        match verdict(section(ci, name)) {
            Some(line) => self.verdict(CI, line),
            None if ci
                .lines()
                .any(|l| l.starts_with(&format!("rt: {name} is kept: "))) =>
            {
                self.kept += 1;
            }
            None => {
                let text = format!("no verdict of `{name}` stands here");
                self.lacking.push(Problem::new(CI, 0, text));
            }
        }
    }

    fn verdict(&mut self, path: &str, (line, text): Line<'_>) {
        self.read += 1;
        if let Some(assumed) = assumes(text) {
            self.wrong(path, line, &assumed);
        }
    }

    fn wrong(&mut self, path: &str, line: usize, text: &str) {
        self.problems.push(Problem::new(path, line, text));
    }
}

fn numbered(text: &str) -> impl Iterator<Item = Line<'_>> {
    text.lines().enumerate().map(|(index, l)| (index + 1, l))
}

/// What `rt ci` printed of a crate's own proof: from the line `== name` to the next that begins so.
fn section<'a>(ci: &'a str, name: &str) -> impl Iterator<Item = Line<'a>> {
    let head = format!("== {name}");
    let behind = numbered(ci).skip_while(move |(_, l)| *l != head).skip(1);
    behind.take_while(|(_, l)| !l.starts_with("== "))
}

/// The last verdict: a check that was killed for memory is made once more.
fn verdict<'a>(lines: impl Iterator<Item = Line<'a>>) -> Option<Line<'a>> {
    lines.filter(|(_, l)| l.starts_with("logic=")).last()
}

/// `must-fail edits: 9 refused, 2 bad`.
fn counts_bad(ok: &str) -> bool {
    let counts = ok.split([',', ';']).map(str::trim);
    counts
        .filter_map(|c| c.strip_suffix(" bad"))
        .any(|n| n.trim() != "0")
}

/// What a verdict's line assumes; none where it is proved with nothing assumed.
pub fn assumes(verdict: &str) -> Option<String> {
    let words: Vec<&str> = verdict.split_whitespace().collect();
    if words.first() != Some(&"logic=proved") {
        return Some("isn't proved".to_string());
    }
    let assumed = |w: &&&str| {
        let (name, value) = w.split_once('=').unwrap_or((w, ""));
        ["axioms", "foreign", "holes"].contains(&name) && value != "0"
    };
    words
        .iter()
        .find(assumed)
        .map(|w| format!("assumes something: {w}"))
}
