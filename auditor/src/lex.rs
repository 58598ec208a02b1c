//! The words of antt, the language of specs and proofs. A name is any run of characters other than
//! spaces and the marks; `«x_2»` is one name, whatever it spells.

const MARKS: &str = "(){}.;,@";

#[derive(Clone, Copy, Debug, PartialEq, Eq)]
pub enum Kind {
    Name,
    Escaped,
    Mark,
    Text,
}

#[derive(Clone, Debug)]
pub struct Token {
    pub text: String,
    pub kind: Kind,
    pub line: usize,
    pub column: usize,
    /// nothing stands between this token and the one before it
    pub tight: bool,
    /// the first token of its line
    pub first: bool,
}

impl Token {
    /// This word or mark, written bare.
    pub fn is(&self, text: &str) -> bool {
        matches!(self.kind, Kind::Name | Kind::Mark) && self.text == text
    }

    pub fn is_name(&self) -> bool {
        matches!(self.kind, Kind::Name | Kind::Escaped)
    }

    pub fn is_numeral(&self) -> bool {
        self.kind == Kind::Name && self.text.starts_with(|c: char| c.is_ascii_digit())
    }
}

struct Lexer<'a> {
    rest: std::iter::Peekable<std::str::Chars<'a>>,
    line: usize,
    column: usize,
    tight: bool,
    first: bool,
    tokens: Vec<Token>,
}

/// The tokens of a text whose first line has the given number; a comment is none. What isn't closed
/// is told with its line.
pub fn lex(text: &str, line: usize) -> Result<Vec<Token>, (usize, String)> {
    let mut lexer = Lexer {
        rest: text.chars().peekable(),
        line,
        column: 0,
        tight: false,
        first: true,
        tokens: Vec::new(),
    };
    while let Some(&c) = lexer.rest.peek() {
        lexer.token(c)?;
    }
    Ok(lexer.tokens)
}

impl Lexer<'_> {
    fn next(&mut self) -> Option<char> {
        let c = self.rest.next()?;
        if c == '\n' {
            self.line += 1;
            self.column = 0;
            self.first = true;
        } else {
            self.column += 1;
        }
        Some(c)
    }

    fn token(&mut self, c: char) -> Result<(), (usize, String)> {
        let (line, column) = (self.line, self.column);
        if c.is_whitespace() {
            self.next();
            self.tight = false;
            return Ok(());
        }
        let (kind, text) = match c {
            '«' => (Kind::Escaped, self.closed('»', line)?),
            '"' => (Kind::Text, self.closed('"', line)?),
            _ if MARKS.contains(c) => {
                self.next();
                (Kind::Mark, c.to_string())
            }
            _ => (Kind::Name, self.name()),
        };
        if kind == Kind::Name && text.starts_with("--") {
            return self.comment();
        }
        if kind == Kind::Mark && text == "{" && self.rest.peek() == Some(&'-') {
            return self.block_comment(line);
        }
        let token = Token {
            text,
            kind,
            line,
            column,
            tight: self.tight,
            first: self.first,
        };
        self.tokens.push(token);
        self.tight = true;
        self.first = false;
        Ok(())
    }

    fn name(&mut self) -> String {
        let mut name = String::new();
        while let Some(&c) = self.rest.peek() {
            if c.is_whitespace() || MARKS.contains(c) || "\"«»".contains(c) {
                break;
            }
            name.push(c);
            self.next();
        }
        name
    }

    /// What stands between the mark here and the closing one.
    fn closed(&mut self, close: char, line: usize) -> Result<String, (usize, String)> {
        self.next();
        let mut text = String::new();
        loop {
            match self.next() {
                Some(c) if c == close => return Ok(text),
                Some('\\') if close == '"' => text.extend(self.next()),
                Some(c) => text.push(c),
                None => return Err((line, format!("no {close} closes what begins here"))),
            }
        }
    }

    fn comment(&mut self) -> Result<(), (usize, String)> {
        while !matches!(self.rest.peek(), None | Some('\n')) {
            self.next();
        }
        self.tight = false;
        Ok(())
    }

    fn block_comment(&mut self, line: usize) -> Result<(), (usize, String)> {
        self.next();
        let mut depth = 1;
        while depth > 0 {
            let c = self.next();
            let after = self.rest.peek().copied();
            match (c, after) {
                (Some('-'), Some('}')) => depth -= 1,
                (Some('{'), Some('-')) => depth += 1,
                (Some(_), _) => continue,
                (None, _) => return Err((line, "no -} closes this comment".to_string())),
            }
            self.next();
        }
        self.tight = false;
        Ok(())
    }
}
