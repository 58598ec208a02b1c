//! Patterns: what they say, constructors, and what they bind.

use crate::expressions::UNREAD;
use crate::walk::Walk;

impl Walk<'_> {
    /// Patterns up to a word or a closing mark.
    pub(crate) fn pattern(&mut self, stop: &str) {
        while self.at < self.end && !self.is(stop) && !self.is(")") {
            self.one_pattern();
        }
    }

    /// A name, or a group: a constructor with its arguments, or a tuple.
    pub(crate) fn one_pattern(&mut self) {
        let Some(token) = self.peek() else {
            return self.unread();
        };
        match token.text.as_str() {
            "(" | "{" => self.pattern_group(),
            "_" => self.at += 1,
            _ if token.is_numeral() => self.at += 1,
            text if !token.is_name() || UNREAD.contains(&text) || text == "record" => self.unread(),
            text if (self.is_constructor)(text) => self.name(),
            text => {
                self.bound.push(text.to_string());
                self.at += 1;
            }
        }
    }

    fn pattern_group(&mut self) {
        let close = if self.is("(") { ")" } else { "}" };
        self.at += 1;
        if close == "}" && self.tokens.get(self.at + 1).is_some_and(|t| t.is("=")) {
            self.at += 2;
        }
        loop {
            let (said, mut atoms) = (self.said.names.len(), 0);
            let first = self.at;
            while self.at < self.end && !self.is(close) && !self.is(",") {
                self.one_pattern();
                atoms += 1;
            }
            if atoms > 1 && self.said.names.len() == said {
                self.at = first;
                return self.unread();
            }
            match self.is(",") {
                true => self.at += 1,
                false => return self.take(close),
            }
        }
    }
}
