//! A file of specs or proofs: what its header brings, and its declarations with their lines.

use crate::lex::{Token, lex};
use crate::problem::Problem;
use crate::uses::{Use, uses};

#[derive(Clone, Copy, Debug, PartialEq, Eq)]
pub enum Form {
    Definition,
    Record,
    Data,
    Axiom,
}

/// A run of tokens of the file.
pub type Span = std::ops::Range<usize>;

/// A declaration. Its parts are the parameters and the type, then the clauses (each with its name), the
/// fields or the constructors.
#[derive(Debug)]
pub struct Declaration {
    pub name: String,
    pub form: Form,
    pub head: Span,
    pub parts: Vec<Span>,
    pub unfolding: Vec<Span>,
    /// the fields of a record or the constructors of a data type, with their lines
    pub members: Vec<(String, usize)>,
    /// the first line of its comment, the first of its text, and its last
    pub comment: usize,
    pub first: usize,
    pub last: usize,
    /// the block with parameters that it stands in
    pub block: Option<usize>,
}

/// `module _ (parameters) where`.
#[derive(Debug)]
pub struct Block {
    pub parameters: Span,
    pub first: usize,
    pub last: usize,
    pub outer: Option<usize>,
}

#[derive(Debug, Default)]
pub struct File {
    pub path: String,
    pub lines: Vec<String>,
    pub tokens: Vec<Token>,
    pub uses: Vec<Use>,
    pub modules: Vec<String>,
    pub blocks: Vec<Block>,
    pub declarations: Vec<Declaration>,
    /// forms that this program doesn't read: nothing is known of what they declare
    pub unread: Vec<Problem>,
}

const MARKS: [&str; 5] = ["pattern", "unfoldable", "abbrev", "pub", "axiom"];

pub fn read(path: &str, text: &str) -> Result<File, Problem> {
    let tokens = lex(text, 1).map_err(|(line, what)| Problem::new(path, line, what))?;
    let whole = 0..tokens.len();
    let mut file = File {
        path: path.to_string(),
        lines: text.lines().map(str::to_string).collect(),
        tokens,
        ..File::default()
    };
    file.read_block(whole, None);
    Ok(file)
}

impl File {
    pub fn declaration(&self, name: &str) -> Option<usize> {
        self.declarations.iter().position(|d| d.name == name)
    }

    fn problem(&self, at: usize, text: impl Into<String>) -> Problem {
        let line = self.tokens.get(at).map_or(0, |t| t.line);
        Problem::new(&self.path, line, text)
    }

    /// The chunks of a span: each begins at a line's first token in the span's own column.
    fn chunks(&self, span: Span) -> Vec<Span> {
        let Some(column) = self.tokens.get(span.start).map(|t| t.column) else {
            return Vec::new();
        };
        let mut starts: Vec<usize> = span
            .clone()
            .filter(|&i| {
                i == span.start || (self.tokens[i].first && self.tokens[i].column <= column)
            })
            .collect();
        starts.push(span.end);
        starts.windows(2).map(|w| w[0]..w[1]).collect()
    }

    fn read_block(&mut self, span: Span, block: Option<usize>) {
        for chunk in self.chunks(span) {
            self.read_chunk(chunk, block);
        }
    }

    fn read_chunk(&mut self, chunk: Span, block: Option<usize>) {
        let start = self.past_marks(chunk.clone());
        let word = self.tokens.get(start).map_or("", |t| t.text.as_str());
        match word {
            "use" => self.read_use(chunk, start + 1),
            "mod" => {
                let names = self.tokens[start + 1..chunk.end].iter();
                self.modules.extend(names.map(|t| t.text.clone()));
            }
            "module" => self.read_module(chunk, block),
            "record" => self.read_type(chunk, start + 1, Form::Record, block),
            "data" => self.read_type(chunk, start + 1, Form::Data, block),
            "unfolding" => self.extend(chunk.clone(), |d| d.unfolding.push(start + 1..chunk.end)),
            "infix" | "infixl" | "infixr" => {}
            "mutual" | "open" | "ruleset" => {
                let problem = self.problem(start, format!("`{word}` is a form that isn't read"));
                self.unread.push(problem);
            }
            _ => self.read_definition(chunk, start, block),
        }
    }

    fn past_marks(&self, chunk: Span) -> usize {
        let is_mark = |t: &Token| MARKS.iter().any(|m| t.is(m));
        let marks = self.tokens[chunk.clone()].iter().take_while(|t| is_mark(t));
        chunk.start + marks.count()
    }

    /// A signature, or a clause of the declaration before it.
    fn read_definition(&mut self, chunk: Span, start: usize, block: Option<usize>) {
        if self.find(start..chunk.end, ":") >= self.find(start..chunk.end, "=") {
            return self.extend(chunk.clone(), |d| d.parts.push(chunk));
        }
        let axiom = self.tokens[chunk.start..start]
            .iter()
            .any(|t| t.is("axiom"));
        let form = if axiom { Form::Axiom } else { Form::Definition };
        self.declare(chunk, start, form, block);
    }

    /// The first of these words at the span's own depth; the span's end where there is none.
    pub fn find(&self, span: Span, word: &str) -> usize {
        let mut depth = 0usize;
        for i in span.clone() {
            let token = &self.tokens[i];
            match token.text.as_str() {
                "(" | "{" => depth += 1,
                ")" | "}" => depth = depth.saturating_sub(1),
                _ if depth == 0 && token.is(word) => return i,
                _ => {}
            }
        }
        span.end
    }

    fn declare(&mut self, chunk: Span, name: usize, form: Form, block: Option<usize>) {
        let first = self.tokens[chunk.start].line;
        let declaration = Declaration {
            name: self.tokens[name].text.clone(),
            form,
            head: name + 1..chunk.end,
            parts: Vec::new(),
            unfolding: Vec::new(),
            members: Vec::new(),
            comment: self.comment_above(first),
            first,
            last: self.tokens[chunk.end - 1].line,
            block,
        };
        self.declarations.push(declaration);
    }

    /// The first of the comment lines right above a line.
    fn comment_above(&self, line: usize) -> usize {
        let above = self.lines[..line - 1].iter().rev();
        line - above
            .take_while(|l| l.trim_start().starts_with("--"))
            .count()
    }

    /// Adds a chunk to the declaration before it.
    fn extend(&mut self, chunk: Span, add: impl FnOnce(&mut Declaration)) {
        let last = self.tokens[chunk.end - 1].line;
        match self.declarations.last_mut() {
            Some(declaration) => {
                declaration.last = last;
                add(declaration);
            }
            None => {
                let problem = self.problem(chunk.start, "a clause without its signature");
                self.unread.push(problem);
            }
        }
    }

    fn read_type(&mut self, chunk: Span, name: usize, form: Form, block: Option<usize>) {
        let body = self.find(name..chunk.end, "where");
        self.declare(chunk.start..chunk.end, name, form, block);
        let fields = self.chunks((body + 1).min(chunk.end)..chunk.end);
        let mut members = Vec::new();
        for field in &fields {
            let colon = self.find(field.clone(), ":");
            let names = self.tokens[field.start..colon].iter();
            members.extend(
                names
                    .filter(|t| t.is_name() && !t.is("pub"))
                    .map(|t| (t.text.clone(), t.line)),
            );
        }
        let declaration = self.declarations.last_mut().expect("just declared");
        declaration.head = name + 1..body;
        declaration.parts = fields;
        declaration.members = members;
    }

    fn read_module(&mut self, chunk: Span, outer: Option<usize>) {
        let body = self.find(chunk.clone(), "where");
        self.blocks.push(Block {
            parameters: chunk.start + 2..body,
            first: self.comment_above(self.tokens[chunk.start].line),
            last: self.tokens[body.min(chunk.end - 1)].line,
            outer,
        });
        let block = Some(self.blocks.len() - 1);
        self.read_block((body + 1).min(chunk.end)..chunk.end, block);
    }

    /// `use M`, `use M as Q`, `use M.{a, b as c, N.d}`.
    fn read_use(&mut self, chunk: Span, start: usize) {
        let public = self.tokens[chunk.start..start].iter().any(|t| t.is("pub"));
        let (mut found, rest) = uses(&self.tokens[start..chunk.end]);
        for item in &mut found {
            item.public = public;
        }
        self.uses.append(&mut found);
        if rest > 0 {
            let problem = self.problem(chunk.end - rest, "a `use` line that isn't read");
            self.unread.push(problem);
        }
    }
}
