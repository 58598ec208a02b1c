//! What a document names: definitions as "`crate` File: `name`, `Record .field`", laws, functions and
//! paths in backticks, and must-fail edits as bare words with underscores.

use crate::project::Project;

/// A thing that a document names, with its line.
#[derive(Clone, Debug, PartialEq, Eq)]
pub struct Mention {
    pub line: usize,
    pub thing: Thing,
}

#[derive(Clone, Debug, PartialEq, Eq)]
pub enum Thing {
    /// "`crate` File"
    File { krate: String, file: String },
    /// "`crate` File: `name`"
    Definition {
        krate: String,
        file: String,
        name: String,
    },
    /// "`Record .field`": a field of a record, of a certain file where one is named
    Field {
        place: Option<(String, String)>,
        record: String,
        field: String,
    },
    /// "law `name`", "record `name`"
    Declared(String),
    /// "`tests/differential/run --only name`"
    Run(String),
    /// a name or a path in backticks that is said of no file
    Known(String),
    /// a must-fail edit, of a certain crate where "(`crate`)" follows
    Edit { name: String, krate: Option<String> },
}

/// A table's row, with the section that it stands in.
pub struct Row<'a> {
    pub line: usize,
    pub section: &'a str,
    pub cells: Vec<&'a str>,
}

/// The rows of a document's tables, without their heads.
pub fn rows(text: &str) -> Vec<Row<'_>> {
    let mut section = "";
    let mut found = Vec::new();
    let mut head = true;
    for (index, line) in text.lines().enumerate() {
        if let Some(title) = line.strip_prefix("## ") {
            section = title;
        }
        let cells = line.strip_prefix("| ").and_then(|l| l.strip_suffix(" |"));
        match cells {
            Some(cells) if !head => found.push(Row {
                line: index + 1,
                section,
                cells: cells.split(" | ").collect(),
            }),
            _ => head = !line.starts_with("|---"),
        }
    }
    found
}

/// A piece of a sentence.
enum Piece<'a> {
    Tick(&'a str),
    Word(&'a str),
    Mark(char),
}

fn pieces(text: &str) -> Vec<Piece<'_>> {
    let mut found = Vec::new();
    let mut rest = text.trim_start();
    while let Some(c) = rest.chars().next() {
        let word = |c: char| c.is_alphanumeric() || "_-/".contains(c);
        let long = if c == '`' {
            let long = rest[1..].find('`').map_or(rest.len(), |n| n + 2);
            found.push(Piece::Tick(rest[1..long].trim_end_matches('`')));
            long
        } else if word(c) {
            let mut long = rest.find(|c: char| !word(c)).unwrap_or(rest.len());
            if rest[long..].starts_with(".rt") {
                long += 3;
            }
            found.push(Piece::Word(&rest[..long]));
            long
        } else {
            found.push(Piece::Mark(c));
            c.len_utf8()
        };
        rest = rest[long..].trim_start();
    }
    found
}

/// What a reading of a sentence knows at a place.
#[derive(Default)]
struct Reading {
    krate: Option<String>,
    file: Option<String>,
    record: Option<String>,
    fields: bool,
    laws: bool,
    /// the crate, the file and whether laws are named, before each open bracket
    outside: Vec<(Option<String>, Option<String>, bool)>,
    found: Vec<Thing>,
}

/// The things that a sentence names.
pub fn mentions(project: &Project, line: usize, text: &str) -> Vec<Mention> {
    let mut reading = Reading::default();
    let all = pieces(text);
    let mut at = 0;
    while at < all.len() {
        at += reading.step(project, &all[at..]);
    }
    let things = reading.found.into_iter();
    things.map(|thing| Mention { line, thing }).collect()
}

impl Reading {
    /// Reads the next piece, and says how many pieces were used.
    fn step(&mut self, project: &Project, rest: &[Piece<'_>]) -> usize {
        match rest {
            [Piece::Tick(krate), Piece::Word(file), ..]
                if project.find(krate).is_some() && is_file(file) =>
            {
                self.krate = Some(krate.to_string());
                self.enter(file);
                2
            }
            [Piece::Word(file), Piece::Mark(':'), ..] if self.krate.is_some() && is_file(file) => {
                self.enter(file);
                2
            }
            [Piece::Word("field" | "fields"), Piece::Tick(_), ..] => {
                self.fields = true;
                1
            }
            [Piece::Word("law" | "laws" | "record"), Piece::Tick(_), ..] => {
                self.laws = true;
                1
            }
            [Piece::Word(word), rest @ ..] if is_edit(word) => {
                self.edit(word, rest);
                1
            }
            [Piece::Tick(text), ..] => {
                self.tick(project, text);
                1
            }
            [Piece::Mark(mark), ..] => {
                self.mark(*mark);
                1
            }
            _ => 1,
        }
    }

    fn enter(&mut self, file: &str) {
        self.file = Some(file.to_string());
        self.record = None;
        let krate = self.krate.clone().expect("a file stands behind its crate");
        self.found.push(Thing::File {
            krate,
            file: file.to_string(),
        });
    }

    /// A stop ends what is said of a file or of laws, and a bracket what is said inside it.
    fn mark(&mut self, mark: char) {
        match mark {
            ';' | '.' => (self.file, self.fields, self.laws) = (None, false, false),
            '(' => {
                let before = (self.krate.clone(), self.file.clone(), self.laws);
                self.outside.push(before);
                self.laws = false;
            }
            ')' => {
                if let Some(before) = self.outside.pop() {
                    (self.krate, self.file, self.laws) = before;
                }
            }
            _ => {}
        }
    }

    fn edit(&mut self, name: &str, rest: &[Piece<'_>]) {
        let krate = match rest {
            [Piece::Mark('('), Piece::Tick(krate), ..] => Some(krate.to_string()),
            _ => None,
        };
        self.found.push(Thing::Edit {
            name: name.to_string(),
            krate,
        });
    }

    fn tick(&mut self, project: &Project, text: &str) {
        let (first, second) = text.split_once(' ').unwrap_or((text, ""));
        let place = self.krate.clone().zip(self.file.clone());
        if let Some((_, name)) = text.split_once("--only ") {
            // capitals stand for any name
            let name = name.split(' ').next().filter(|n| *n != n.to_uppercase());
            let run = name.map(|n| Thing::Run(n.to_string()));
            return self.found.extend(run);
        }
        if let Some(field) = first.strip_prefix('.').filter(|f| is_field(f)) {
            return self.field(place, field);
        }
        if let Some(field) = second.strip_prefix('.').filter(|f| is_field(f)) {
            self.record = Some(first.to_string());
            return self.field(place, field);
        }
        if self.fields && self.record.is_some() {
            return self.field(place, first);
        }
        match place {
            _ if self.laws => self.found.push(Thing::Declared(first.to_string())),
            Some((krate, file)) => {
                self.record = Some(first.to_string());
                self.found.push(Thing::Definition {
                    krate,
                    file,
                    name: first.to_string(),
                });
            }
            None => {
                if let Some((krate, _)) = text.split_once("::") {
                    self.krate = project.find(krate).map(|_| krate.to_string());
                }
                self.record = Some(first.to_string());
                self.found.push(Thing::Known(text.to_string()));
            }
        }
    }

    fn field(&mut self, place: Option<(String, String)>, field: &str) {
        let record = self.record.clone().unwrap_or_default();
        self.found.push(Thing::Field {
            place,
            record,
            field: field.to_string(),
        });
    }
}

/// A file of specs, `Closed`, or of src, `page.rt`.
fn is_file(word: &str) -> bool {
    word.ends_with(".rt") || word.starts_with(|c: char| c.is_uppercase())
}

fn is_edit(word: &str) -> bool {
    word.contains('_') && !word.contains('/') && word.starts_with(|c: char| c.is_lowercase())
}

fn is_field(text: &str) -> bool {
    text.starts_with(|c: char| c.is_alphabetic()) && !text.contains('/')
}
