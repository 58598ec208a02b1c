//! Expressions: the names that they say, and what `λ`, `let`, `(x : A) →` and `record` bind on the way.

use crate::kit::HOLE;
use crate::lex::{Kind, Token};
use crate::walk::{Name, Walk};

const SYNTAX: [&str; 4] = ["→", "×", "Type", "_"];

/// Words of the language that have no meaning where a name may stand, or one that isn't read.
pub(crate) const UNREAD: [&str; 25] = [
    ":", "=", "where", "elim", "do", "open", "mutual", "using", "deriving", "∀", "unfold",
    "package", "𝕀", "𝔽", "coe", "fcoe", "tcoe", "hcom", "com", "V", "vin", "vproj", "inS", "outS",
    "data",
];

impl<'a> Walk<'a> {
    /// Everything up to a closing mark, a separator or one of the words; what is bound on the way is
    /// bound to its end.
    pub(crate) fn expression(&mut self, stops: &[&str]) {
        let bound = self.bound.len();
        while let Some(token) = self.peek() {
            if [")", "}", ",", ";"]
                .iter()
                .chain(stops)
                .any(|s| token.is(s))
            {
                break;
            }
            self.atom(token);
        }
        self.bound.truncate(bound);
    }

    fn atom(&mut self, token: &'a Token) {
        match token.text.as_str() {
            _ if token.kind == Kind::Escaped => self.name(),
            "(" | "{" => self.group(),
            "." => self.projection(),
            "λ" => {
                self.at += 1;
                self.lambda();
            }
            "let" => {
                self.at += 1;
                self.binding();
            }
            "record" => {
                self.at += 1;
                self.record();
            }
            text if SYNTAX.contains(&text) || token.is_numeral() => self.at += 1,
            text if UNREAD.contains(&text) || text.starts_with('?') || text == "@" => self.unread(),
            _ if token.kind == Kind::Text => self.at += 1,
            _ => self.name(),
        }
    }

    /// ` .field` or `.0`, behind what has it.
    fn projection(&mut self) {
        self.at += 1;
        match self.peek().filter(|t| t.is_name() && t.tight) {
            Some(token) => {
                self.said.fields.push((token.text.clone(), token.line));
                self.at += 1;
            }
            None => self.unread(),
        }
    }

    /// A name, or a path of names with no spaces between.
    pub(crate) fn name(&mut self) {
        let line = self.tokens[self.at].line;
        let mut path = vec![self.tokens[self.at].text.clone()];
        self.at += 1;
        while self.is(".") && self.tokens[self.at].tight {
            match self.tokens[..self.end].get(self.at + 1) {
                Some(token) if token.is_name() && token.tight => path.push(token.text.clone()),
                _ => break,
            }
            self.at += 2;
        }
        if self.is_bound(&path[0]) {
            let fields = path.into_iter().skip(1);
            self.said.fields.extend(fields.map(|field| (field, line)));
        } else {
            self.said.names.push(Name { path, line });
        }
    }

    /// Bound itself, or a part of a bound operator.
    fn is_bound(&self, name: &str) -> bool {
        self.bound
            .iter()
            .any(|b| b == name || (b.contains(HOLE) && b.split(HOLE).any(|part| part == name)))
    }

    fn group(&mut self) {
        if self.binder() {
            return;
        }
        let close = if self.is("(") { ")" } else { "}" };
        self.at += 1;
        loop {
            // an implicit argument by its name, `{x = e}`
            if close == "}" && self.tokens.get(self.at + 1).is_some_and(|t| t.is("=")) {
                self.at += 2;
            }
            self.expression(&[]);
            match self.is(",") {
                true => self.at += 1,
                false => return self.take(close),
            }
        }
    }

    /// `(x y : A)` or `{x : A}`, which binds to the end of the expression that it stands in. Says
    /// whether there is one here.
    pub(crate) fn binder(&mut self) -> bool {
        let mut at = self.at + 1;
        while self.tokens[..self.end]
            .get(at)
            .is_some_and(|t| t.is_name() && !t.is(":"))
        {
            at += 1;
        }
        let colon = self.tokens[..self.end].get(at).is_some_and(|t| t.is(":"));
        if !colon || at == self.at + 1 {
            return false;
        }
        let close = if self.is("(") { ")" } else { "}" };
        let names = &self.tokens[self.at + 1..at];
        self.at = at + 1;
        self.expression(&[]);
        self.take(close);
        self.bound.extend(names.iter().map(|t| t.text.clone()));
        true
    }

    /// The binders of `λ x (y : A) (a, b). body`, up to the dot.
    fn lambda(&mut self) {
        while !self.is(".") && self.at < self.end {
            if !((self.is("(") || self.is("{")) && self.binder()) {
                self.one_pattern();
            }
        }
        self.take(".");
    }

    /// `let x = e in` or `let x : A = e in`.
    fn binding(&mut self) {
        let bound = self.bound.len();
        self.one_pattern();
        let names = self.bound.split_off(bound);
        if self.is(":") {
            self.at += 1;
            self.expression(&["="]);
        }
        self.take("=");
        self.expression(&["in"]);
        self.take("in");
        self.bound.extend(names);
    }

    /// `record { x = e; y = e }`, `record r { x = e }`, which has the other fields of r (a name, or a term
    /// in brackets), or the type `record { x : A; y : B }`.
    fn record(&mut self) {
        let bound = self.bound.len();
        match self.peek() {
            Some(token) if token.is("(") => self.group(),
            Some(token) if token.is_name() => self.name(),
            _ => {}
        }
        self.take("{");
        while self.peek().is_some_and(Token::is_name) {
            let label = &self.tokens[self.at];
            self.at += 1;
            let declares = self.is(":");
            self.take(if declares { ":" } else { "=" });
            self.expression(&[]);
            if declares {
                self.bound.push(label.text.clone());
                self.said.unnamed.push(label.text.clone());
            } else {
                self.said.fields.push((label.text.clone(), label.line));
            }
            if self.is(";") {
                self.at += 1;
            }
        }
        self.take("}");
        self.bound.truncate(bound);
    }
}
