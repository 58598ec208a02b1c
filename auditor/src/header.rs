//! The calls as a C header declares them.

/// A function's declaration, with the comment right above it and the line that it begins on.
pub struct Declaration<'a> {
    pub line: usize,
    pub text: Vec<&'a str>,
}

/// The declaration of a function; none where the header has it not.
pub fn declaration<'a>(header: &'a str, name: &str) -> Option<Declaration<'a>> {
    let lines: Vec<&str> = header.lines().collect();
    let opens = format!("{name}(");
    let at = lines.iter().position(|l| declares(l, &opens))?;
    // a long return type stands on a line of its own
    let first = at - usize::from(lines[at].starts_with(name) && at > 0);
    let last = (at..lines.len()).find(|&i| lines[i].trim_end().ends_with(';'))?;
    let comment = comment_above(&lines, first);
    Some(Declaration {
        line: comment + 1,
        text: lines[comment..=last].to_vec(),
    })
}

/// Names of functions that the header declares with this prefix and does not define.
pub fn declared(header: &str, prefix: &str) -> Vec<String> {
    let mut found = Vec::new();
    for line in header.lines().filter(|l| !l.starts_with([' ', '/', '#'])) {
        if line.contains("static ") {
            continue;
        }
        let Some((before, _)) = line.split_once('(') else {
            continue;
        };
        let name = before.rsplit([' ', '*']).next().unwrap_or("");
        if name.starts_with(prefix) {
            found.push(name.to_string());
        }
    }
    found
}

fn declares(line: &str, opens: &str) -> bool {
    !line.starts_with([' ', '/', '#', '*'])
        && !line.contains("static ")
        && line.find(opens).is_some_and(|at| {
            let before = line[..at].chars().next_back();
            before.is_none_or(|c| c == ' ' || c == '*')
        })
}

/// The first line of the comment that ends right above a line; the line itself where there is none.
fn comment_above(lines: &[&str], line: usize) -> usize {
    if line == 0 || !lines[line - 1].trim_end().ends_with("*/") {
        return line;
    }
    (0..line)
        .rev()
        .find(|&i| lines[i].trim_start().starts_with("/*"))
        .unwrap_or(line)
}
