//! The names that a declaration or a clause says, less those that it binds itself.

use crate::antt::{File, Form, Span};
use crate::kit;
use crate::lex::Token;
use crate::problem::Problem;

/// A name as it is written, `a` or `M.a`, and its line.
#[derive(Clone, Debug, PartialEq, Eq)]
pub struct Name {
    pub path: Vec<String>,
    pub line: usize,
}

#[derive(Debug, Default)]
pub struct Said {
    pub names: Vec<Name>,
    /// what is projected, `.field`, or given, `record { field = e }`
    pub fields: Vec<(String, usize)>,
    /// the fields of a record type without a name
    pub unnamed: Vec<String>,
    /// what an `unfolding` line names: how a definition computes, and not what it says
    pub unfolded: Vec<Name>,
    pub problems: Vec<Problem>,
}

/// Walks over tokens with the names that are bound at each place. Which names are constructors, its
/// file's scope says: in a pattern these are said, and all others are bound.
pub struct Walk<'a> {
    path: &'a str,
    pub(crate) tokens: &'a [Token],
    pub(crate) at: usize,
    pub(crate) end: usize,
    pub(crate) bound: Vec<String>,
    pub(crate) is_constructor: &'a dyn Fn(&str) -> bool,
    pub(crate) said: Said,
}

/// What a declaration says, in the parameters of its blocks, its type and its body.
pub fn declaration(file: &File, index: usize, is_constructor: &dyn Fn(&str) -> bool) -> Said {
    let declaration = &file.declarations[index];
    let mut walk = Walk::new(&file.path, &file.tokens, is_constructor);
    let mut blocks = Vec::new();
    let mut outer = declaration.block;
    while let Some(block) = outer {
        blocks.push(block);
        outer = file.blocks[block].outer;
    }
    for block in blocks.into_iter().rev() {
        walk.binders(file.blocks[block].parameters.clone());
    }
    walk.head(file, declaration.head.clone());
    for part in &declaration.parts {
        match declaration.form {
            Form::Record => walk.field(file, part.clone()),
            Form::Data => walk.constructors(file, part.clone()),
            Form::Definition | Form::Axiom => walk.clause(file, part.clone(), &declaration.name),
        }
    }
    let unfolded = declaration.unfolding.iter().cloned().flatten();
    walk.said.unfolded = unfolded
        .map(|i| Name {
            path: vec![file.tokens[i].text.clone()],
            line: file.tokens[i].line,
        })
        .collect();
    walk.said
}

/// What an `ensures` says of the given parameters and of the result.
pub fn clause(
    path: &str,
    tokens: &[Token],
    parameters: &[String],
    is_constructor: &dyn Fn(&str) -> bool,
) -> Said {
    let mut walk = Walk::new(path, tokens, is_constructor);
    walk.bound.extend(parameters.iter().cloned());
    walk.bound.push(kit::RESULT.to_string());
    walk.within(0..tokens.len(), |w| w.expression(&[]));
    walk.said
}

impl<'a> Walk<'a> {
    fn new(path: &'a str, tokens: &'a [Token], is_constructor: &'a dyn Fn(&str) -> bool) -> Self {
        Walk {
            path,
            tokens,
            at: 0,
            end: 0,
            bound: Vec::new(),
            is_constructor,
            said: Said::default(),
        }
    }

    fn within(&mut self, span: Span, read: impl FnOnce(&mut Self)) {
        (self.at, self.end) = (span.start, span.end);
        read(self);
        if self.at < self.end {
            self.unread();
        }
    }

    pub(crate) fn unread(&mut self) {
        let (line, text) = match self.tokens.get(self.at) {
            Some(token) => (token.line, format!("`{}` isn't read here", token.text)),
            None => (0, "the text ends too early".to_string()),
        };
        self.said.problems.push(Problem::new(self.path, line, text));
        self.at = self.end;
    }

    pub(crate) fn peek(&self) -> Option<&'a Token> {
        self.tokens[..self.end].get(self.at)
    }

    pub(crate) fn is(&self, text: &str) -> bool {
        self.peek().is_some_and(|t| t.is(text))
    }

    pub(crate) fn take(&mut self, text: &str) {
        match self.is(text) {
            true => self.at += 1,
            false => self.unread(),
        }
    }

    /// Groups of parameters, `(x y : A) {z : B}`, and level parameters, `{ℓ}`.
    fn binders(&mut self, span: Span) {
        self.within(span, |w| {
            while w.is("(") || w.is("{") {
                if !w.binder() {
                    w.at += 1;
                    w.pattern("}");
                    w.take("}");
                }
            }
        });
    }

    /// Parameters, then the type.
    fn head(&mut self, file: &File, span: Span) {
        let colon = file.find(span.clone(), ":");
        self.binders(span.start..colon);
        self.body(colon..span.end, ":");
    }

    /// A mark and an expression to the span's end.
    fn body(&mut self, span: Span, mark: &str) {
        self.within(span, |w| {
            w.take(mark);
            w.expression(&[]);
        });
    }

    fn clause(&mut self, file: &File, span: Span, name: &str) {
        let bound = self.bound.len();
        let equals = file.find(span.clone(), "=");
        self.within(span.start..equals, |w| {
            w.take(name);
            w.pattern("=");
        });
        self.body(equals..span.end, "=");
        self.bound.truncate(bound);
    }

    /// A field is bound in the fields behind it.
    fn field(&mut self, file: &File, span: Span) {
        let colon = file.find(span.clone(), ":");
        self.body(colon..span.end, ":");
        let names = self.tokens[span.start..colon].iter();
        self.bound
            .extend(names.filter(|t| !t.is("pub")).map(|t| t.text.clone()));
    }

    fn constructors(&mut self, file: &File, span: Span) {
        let colon = file.find(span.clone(), ":");
        self.body(colon..span.end, ":");
    }
}
