//! The words of Rattle, as far as types need them.

/// A word, a number, a path's `::` or another mark, with its line; comments and strings are left out.
#[derive(Clone, Debug)]
pub struct Word {
    pub text: String,
    pub line: usize,
}

const PRIMITIVE: [&str; 13] = [
    "u8", "u16", "u32", "u64", "usize", "i8", "i16", "i32", "i64", "isize", "f32", "f64", "bool",
];
const SILENT: [&str; 6] = ["pub", "mut", "fn", "extern", "self", "const"];

/// The words of a line; what stands in quotes is left out, and lifetimes are.
pub fn words(line: &str, number: usize) -> Vec<Word> {
    let mut found = Vec::new();
    let mut rest = line.trim_start();
    while let Some(c) = rest.chars().next() {
        let long = if c.is_alphanumeric() || c == '_' {
            rest.find(|c: char| !(c.is_alphanumeric() || c == '_'))
                .unwrap_or(rest.len())
        } else if rest.starts_with("::") {
            2
        } else if c == '"' {
            rest[1..].find('"').map_or(rest.len(), |n| n + 2)
        } else if c == '\'' {
            let name = rest[1..].find(|c: char| !(c.is_alphanumeric() || c == '_'));
            name.map_or(rest.len(), |n| n + 1)
        } else {
            c.len_utf8()
        };
        if c != '"' && c != '\'' {
            found.push(Word {
                text: rest[..long].to_string(),
                line: number,
            });
        }
        rest = rest[long..].trim_start();
    }
    found
}

pub fn is_word(text: &str) -> bool {
    text.starts_with(|c: char| c.is_alphabetic() || c == '_')
}

/// Fields or parameters (`name:`), and the paths of types; words at the depth of an enum's variants are
/// taken by the caller.
pub fn named_types(all: &[Word], named: &mut Vec<String>, types: &mut Vec<(Vec<String>, usize)>) {
    let mut at = 0;
    while at < all.len() {
        let word = &all[at];
        at += 1;
        if !is_word(&word.text) {
            continue;
        }
        let mut path = vec![word.text.clone()];
        while all.get(at).is_some_and(|w| w.text == "::") && at + 1 < all.len() {
            path.push(all[at + 1].text.clone());
            at += 2;
        }
        if all.get(at).is_some_and(|w| w.text == ":") {
            named.append(&mut path);
        } else if !(PRIMITIVE.contains(&path[0].as_str()) || SILENT.contains(&path[0].as_str())) {
            types.push((path, word.line));
        }
    }
}
