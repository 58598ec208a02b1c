//! A file of Rattle: what it brings, its structs and enums, and its functions with their clauses.

use std::collections::BTreeMap;

use crate::lex::{Token, lex};
use crate::problem::Problem;
use crate::uses::{Use, uses};
use crate::words::{Word, is_word, named_types, words};

#[derive(Debug)]
pub struct Struct {
    pub name: String,
    /// the first line of its comment, the first of its text, and its last
    pub comment: usize,
    pub first: usize,
    pub last: usize,
    pub fields: Vec<String>,
    pub variants: Vec<String>,
    /// paths of the types that it names, with their lines
    pub types: Vec<(Vec<String>, usize)>,
}

/// A clause, `ensures name { .. }`, or `ensures* { .. }` of what is said of memory.
#[derive(Debug)]
pub struct Clause {
    pub name: Option<String>,
    pub starred: bool,
    /// what stands in its braces
    pub tokens: Vec<Token>,
}

#[derive(Debug, Default)]
pub struct Function {
    pub name: String,
    /// whether C can call it
    pub exported: bool,
    pub comment: usize,
    pub first: usize,
    /// the last line before the body
    pub last: usize,
    pub parameters: Vec<String>,
    pub types: Vec<(Vec<String>, usize)>,
    pub requires: Vec<Clause>,
    pub ensures: Vec<Clause>,
    /// the first line among its clauses that isn't one of these, as a `ghost` clause
    pub unread: Option<usize>,
}

#[derive(Debug, Default)]
pub struct File {
    pub path: String,
    pub lines: Vec<String>,
    /// local name to whole path
    pub uses: BTreeMap<String, Vec<String>>,
    pub ghosts: Vec<Use>,
    pub structs: Vec<Struct>,
    pub functions: Vec<Function>,
}

pub fn read(path: &str, text: &str) -> Result<File, Problem> {
    let mut file = File {
        path: path.to_string(),
        lines: text.lines().map(str::to_string).collect(),
        ..File::default()
    };
    for line in 1..=file.lines.len() {
        file.read_line(line)?;
    }
    Ok(file)
}

/// A line without its comment.
pub fn code(line: &str) -> &str {
    line.split("//").next().unwrap_or("")
}

impl File {
    fn read_line(&mut self, line: usize) -> Result<(), Problem> {
        let text = code(&self.lines[line - 1]).trim();
        let plain = text.strip_prefix("pub ").unwrap_or(text);
        if let Some(rest) = plain.strip_prefix("ghost use ") {
            self.read_ghost(rest.to_string(), line)
        } else if plain.starts_with("use ") {
            let whole = self.whole_use(line);
            let rest = whole.split_once("use ").map_or("", |(_, rest)| rest);
            self.read_use(rest.trim_end_matches(';').to_string());
            Ok(())
        } else if plain.starts_with("struct ") || plain.starts_with("enum ") {
            self.read_struct(line)
        } else if plain.starts_with("fn ") || plain.starts_with("extern \"C\" fn ") {
            self.read_function(line)
        } else {
            Ok(())
        }
    }

    fn problem(&self, line: usize, text: &str) -> Problem {
        Problem::new(&self.path, line, text)
    }

    fn read_ghost(&mut self, rest: String, line: usize) -> Result<(), Problem> {
        let tokens = lex(&rest, line).map_err(|(line, what)| self.problem(line, &what))?;
        let (found, left) = uses(&tokens[..tokens.len().saturating_sub(1)]);
        if left > 0 || !tokens.last().is_some_and(|t| t.is(";")) {
            return Err(self.problem(line, "a `ghost use` line that isn't read"));
        }
        self.ghosts.extend(found);
        Ok(())
    }

    /// A `use` from its line to its `;`, on one line.
    fn whole_use(&self, line: usize) -> String {
        let mut whole = String::new();
        for text in &self.lines[line - 1..] {
            whole += code(text).trim();
            if whole.ends_with(';') {
                break;
            }
        }
        whole
    }

    /// `use a::b::C` or `use a::b::{C, D}`.
    fn read_use(&mut self, rest: String) {
        let (base, names) = match rest.split_once("::{") {
            Some((base, names)) => (base.to_string() + "::", names.trim_end_matches('}')),
            None => (String::new(), rest.as_str()),
        };
        for name in names.split(',').map(str::trim).filter(|n| !n.is_empty()) {
            let whole: Vec<String> = format!("{base}{name}")
                .split("::")
                .map(str::to_string)
                .collect();
            let local = whole.last().expect("a path has a part").clone();
            self.uses.insert(local, whole);
        }
    }

    /// The first of the comment and attribute lines right above a line, and the first of the text.
    fn above(&self, line: usize) -> (usize, usize) {
        let count = |line: usize, start: &str| {
            let lines = self.lines[..line - 1].iter().rev();
            lines
                .take_while(|l| l.trim_start().starts_with(start))
                .count()
        };
        let first = line - count(line, "#[");
        (first - count(first, "//"), first)
    }

    /// The words from a line on.
    fn words(&self, line: usize) -> impl Iterator<Item = Word> + '_ {
        let lines = self.lines.iter().enumerate().skip(line - 1);
        lines.flat_map(|(i, text)| words(code(text), i + 1))
    }

    fn read_struct(&mut self, line: usize) -> Result<(), Problem> {
        let (comment, first) = self.above(line);
        let mut declared = Struct {
            name: String::new(),
            comment,
            first,
            last: 0,
            fields: Vec::new(),
            variants: Vec::new(),
            types: Vec::new(),
        };
        let mut all: Vec<Word> = Vec::new();
        let mut depth = 0;
        for word in self.words(line) {
            match word.text.as_str() {
                "{" | "(" | "[" => depth += 1,
                "}" | ")" | "]" => depth -= 1,
                _ => {}
            }
            let over = depth == 0 && (word.text == "}" || word.text == ";");
            declared.last = word.line;
            all.push(word);
            if over {
                break;
            }
        }
        fill(&mut declared, &all);
        self.structs.push(declared);
        Ok(())
    }

    /// A function's text ends before the line that opens its body: a brace alone behind clauses, and the
    /// signature's own last line where there are none.
    fn read_function(&mut self, line: usize) -> Result<(), Problem> {
        let (comment, first) = self.above(line);
        let (clauses, last) = self.extent(line);
        let words: Vec<Word> = (line..clauses)
            .flat_map(|i| words(code(&self.lines[i - 1]), i))
            .collect();
        let text = self.lines[clauses - 1..last].join("\n");
        let tokens = lex(&text, clauses).map_err(|(at, what)| self.problem(at, &what))?;
        let name = 1 + words.iter().position(|w| w.text == "fn").unwrap_or(0);
        let attributes = &self.lines[first - 1..line];
        let named = attributes.iter().any(|l| code(l).contains("no_mangle"));
        let mut function = Function {
            name: words.get(name).map_or(String::new(), |w| w.text.clone()),
            exported: named || words.iter().any(|w| w.text == "extern"),
            comment,
            first,
            last,
            ..Function::default()
        };
        let rest = &words[(name + 1).min(words.len())..];
        named_types(rest, &mut function.parameters, &mut function.types);
        read_clauses(tokens, &mut function);
        self.functions.push(function);
        Ok(())
    }

    /// The first line behind a function's signature, and the last line before its body.
    fn extent(&self, line: usize) -> (usize, usize) {
        let indent = indent(&self.lines[line - 1]);
        let mut clauses = None;
        for i in line..=self.lines.len() {
            let text = code(&self.lines[i - 1]);
            if CLAUSES.contains(&first_word(text)) {
                clauses.get_or_insert(i);
            }
            match clauses {
                Some(clauses) if text.trim() == "{" && self::indent(text) == indent => {
                    return (clauses, i - 1);
                }
                None if text.trim_end().ends_with(['{', ';']) => return (i + 1, i),
                _ => {}
            }
        }
        (self.lines.len() + 1, self.lines.len())
    }
}

fn indent(line: &str) -> usize {
    line.len() - line.trim_start().len()
}

/// The words that a clause begins with.
const CLAUSES: [&str; 5] = ["requires", "requires*", "ensures", "ensures*", "ghost"];

fn first_word(line: &str) -> &str {
    line.split_whitespace().next().unwrap_or("")
}

/// The clauses, each with its name and what stands in its braces.
fn read_clauses(tokens: Vec<Token>, function: &mut Function) {
    let mut rest = tokens.as_slice();
    while let Some(first) = rest.first() {
        let kind = first.text.strip_suffix('*').unwrap_or(&first.text);
        let named = rest.get(1).filter(|t| t.is_name());
        let open = 1 + usize::from(named.is_some());
        let long = closed(rest, open).filter(|_| kind == "requires" || kind == "ensures");
        let Some(long) = long else {
            function.unread = Some(first.line);
            // asked or not, such a function may not count as one that asks nothing
            return;
        };
        let clause = Clause {
            name: named.map(|t| t.text.clone()),
            starred: first.text.ends_with('*'),
            tokens: rest[open + 1..long - 1].to_vec(),
        };
        match kind {
            "ensures" => function.ensures.push(clause),
            _ => function.requires.push(clause),
        }
        rest = &rest[long..];
    }
}

/// How many tokens there are up to the brace that closes the one at a place.
fn closed(tokens: &[Token], open: usize) -> Option<usize> {
    let mut depth = 0;
    for (at, token) in tokens.iter().enumerate().skip(open) {
        depth += i32::from(token.is("{")) - i32::from(token.is("}"));
        match depth {
            0 if token.is("}") => return Some(at + 1),
            0 => return None,
            _ => {}
        }
    }
    None
}

/// Name, fields, variants and types of a struct or an enum, from its words.
fn fill(declared: &mut Struct, all: &[Word]) {
    let at = all
        .iter()
        .position(|w| w.text == "struct" || w.text == "enum")
        .unwrap_or(0);
    let is_enum = all[at].text == "enum";
    declared.name = all.get(at + 1).map_or(String::new(), |w| w.text.clone());
    let mut depth = 0;
    let mut rest = Vec::new();
    for word in &all[(at + 2).min(all.len())..] {
        match word.text.as_str() {
            "{" | "(" | "[" => depth += 1,
            "}" | ")" | "]" => depth -= 1,
            text if is_enum && depth == 1 && is_word(text) => {
                declared.variants.push(text.to_string());
                continue;
            }
            _ => {}
        }
        rest.push(word.clone());
    }
    named_types(&rest, &mut declared.fields, &mut declared.types);
    let tuple = rest.first().is_some_and(|w| w.text == "(");
    if tuple {
        let count = rest.iter().filter(|w| w.text == ",").count() + 1;
        declared.fields.extend((0..count).map(|i| i.to_string()));
    }
}
