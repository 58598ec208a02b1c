//! `use` lines, of antt and behind `ghost` in Rattle.

use crate::lex::Token;

/// `use module.{name as local}`, or `use module as local` where `name` is none.
#[derive(Debug)]
pub struct Use {
    pub module: String,
    pub name: Option<String>,
    pub local: String,
    pub public: bool,
    pub line: usize,
}

/// What the tokens behind `use` bring, and how many tokens are left over.
pub fn uses(tokens: &[Token]) -> (Vec<Use>, usize) {
    let (module, mut at) = path(tokens, 0);
    let line = tokens.first().map_or(0, |t| t.line);
    let item = |module: &str, name: Option<&str>, local: &str| Use {
        module: module.to_string(),
        name: name.map(str::to_string),
        local: local.to_string(),
        public: false,
        line,
    };
    if !tokens.get(at).is_some_and(|t| t.is("{")) {
        let (local, at) = renamed(tokens, at, module.rsplit('.').next().unwrap_or(""));
        return (vec![item(&module, None, &local)], tokens.len() - at);
    }
    at += 1;
    let mut found = Vec::new();
    while tokens.get(at).is_some_and(Token::is_name) {
        let (whole, next) = path(tokens, at);
        let (below, name) = match whole.rsplit_once('.') {
            Some((below, name)) => (format!("{module}.{below}"), name.to_string()),
            None => (module.clone(), whole),
        };
        let (local, next) = renamed(tokens, next, &name);
        found.push(item(&below, Some(&name), &local));
        at = next + usize::from(tokens.get(next).is_some_and(|t| t.is(",")));
    }
    let closed = tokens.get(at).is_some_and(|t| t.is("}"));
    (found, tokens.len() - at - usize::from(closed))
}

/// A dotted path from a place on, and the place behind it; a dot before a brace is passed.
fn path(tokens: &[Token], mut at: usize) -> (String, usize) {
    let mut whole = String::new();
    while let Some(token) = tokens.get(at).filter(|t| t.is_name()) {
        whole.push_str(&token.text);
        at += 1;
        if !tokens.get(at).is_some_and(|t| t.is(".")) {
            break;
        }
        at += 1;
        if tokens.get(at).is_some_and(Token::is_name) {
            whole.push('.');
        }
    }
    (whole, at)
}

/// `as name`, or the name itself where it isn't renamed.
fn renamed(tokens: &[Token], at: usize, name: &str) -> (String, usize) {
    match (tokens.get(at), tokens.get(at + 1)) {
        (Some(word), Some(local)) if word.is("as") => (local.text.clone(), at + 2),
        _ => (name.to_string(), at),
    }
}
