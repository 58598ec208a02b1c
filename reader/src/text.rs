//! The input, line by line and word by word. Nothing is held but the word that is being read, so a
//! line of any length, a comment or a stream without an end takes no memory.

use std::io::BufRead;

use crate::Failure;
use crate::values::{self, Hex, Whole};

/// The most characters of a word, and of the rest of a line that is taken whole. Bytes in hex are the
/// one word that may be longer.
pub const MOST_CHARACTERS: usize = 1024;

/// The lines of the input, one at a time, so that a text is answered before the next one is read.
pub struct Lines<R> {
    input: R,
    number: usize,
    /// Whether the line that is being read has more, its newline at least.
    open: bool,
    word: Vec<u8>,
}

impl<R: BufRead> Lines<R> {
    pub fn new(input: R) -> Self {
        Lines {
            input,
            number: 0,
            open: false,
            word: Vec::new(),
        }
    }

    /// The number of the line that is being read.
    pub fn number(&self) -> usize {
        self.number
    }

    /// Whether no word of the line is left.
    pub fn ended(&self) -> bool {
        !self.open
    }

    /// Goes to the next line that is neither empty nor a comment. False at the end of the input.
    pub fn next_line(&mut self) -> Result<bool, Failure> {
        loop {
            self.number += 1;
            match self.input.fill_buf()?.first() {
                None => return Ok(false),
                Some(b'\n') => self.input.consume(1),
                Some(b'#') => self.skip_line()?,
                Some(_) => {
                    self.open = true;
                    return Ok(true);
                }
            }
        }
    }

    /// Passes over a comment, which has to be ASCII and to end all the same.
    fn skip_line(&mut self) -> Result<(), Failure> {
        loop {
            let there = self.input.fill_buf()?;
            let end = there.iter().position(|byte| *byte == b'\n');
            let part = &there[..end.unwrap_or(there.len())];
            let (ascii, length) = (part.is_ascii(), there.len());
            if length == 0 {
                return Err(self.unfinished());
            }
            if !ascii {
                return Err(self.not_ascii());
            }
            self.input.consume(end.map_or(length, |end| end + 1));
            if end.is_some() {
                return Ok(());
            }
        }
    }

    /// Takes characters up to one that ends them, which is passed over and given back; none where
    /// there are too many.
    fn take(&mut self, ends: fn(u8) -> bool) -> Result<Option<u8>, Failure> {
        self.word.clear();
        loop {
            let there = self.input.fill_buf()?;
            if there.is_empty() {
                return Err(self.unfinished());
            }
            let end = there.iter().position(|byte| ends(*byte));
            let length = end.unwrap_or(there.len());
            let room = MOST_CHARACTERS + 1 - self.word.len();
            self.word.extend(&there[..length.min(room)]);
            let ended = end.map(|end| there[end]);
            self.input.consume(end.map_or(length, |end| end + 1));
            if !self.word.is_ascii() {
                return Err(self.not_ascii());
            }
            if self.word.len() > MOST_CHARACTERS {
                return Ok(None);
            }
            if ended.is_some() {
                return Ok(ended);
            }
        }
    }

    /// The rest of the line, cut where it is longer than anything that may stand there.
    pub fn rest(&mut self) -> Result<&[u8], Failure> {
        if self.open {
            self.take(|byte| byte == b'\n')?;
            self.open = false;
        } else {
            self.word.clear();
        }
        Ok(&self.word)
    }

    /// The next word; none at the end of the line.
    fn next(&mut self) -> Result<Option<&[u8]>, Failure> {
        if !self.open {
            return Ok(None);
        }
        match self.take(|byte| matches!(byte, b' ' | b'\n'))? {
            Some(end) => self.open = end == b' ',
            None => {
                let start = show(&self.word);
                let message = format!("{start} has more than {MOST_CHARACTERS} characters");
                return Err(self.malformed(message));
            }
        }
        if self.word.is_empty() {
            return Err(self.malformed("fields are separated by single spaces"));
        }
        Ok(Some(&self.word))
    }

    /// The next word, which has to be there.
    pub fn word(&mut self) -> Result<&[u8], Failure> {
        if !self.open {
            return Err(self.malformed("the line ends too early"));
        }
        self.next().map(Option::unwrap_or_default)
    }

    pub fn whole<T: Whole>(&mut self) -> Result<T, Failure> {
        let value = values::whole(self.word()?);
        value.map_err(|message| self.malformed(message))
    }

    pub fn float(&mut self) -> Result<f64, Failure> {
        let value = values::float(self.word()?);
        value.map_err(|message| self.malformed(message))
    }

    /// A list of numbers. One more than `most` is held at most: whoever asks for no more than `most`
    /// sees that there are too many.
    pub fn wholes<T: Whole>(&mut self, most: usize) -> Result<Vec<T>, Failure> {
        let count = self.whole()?;
        self.entries(count, most, values::whole)
    }

    /// At most `most` numbers; more are not of the form.
    pub fn few_wholes<T: Whole>(&mut self, most: usize) -> Result<Vec<T>, Failure> {
        let count = self.few(most)?;
        self.entries(count, most, values::whole)
    }

    /// At most `most` floats; more are not of the form.
    pub fn few_floats(&mut self, most: usize) -> Result<Vec<f64>, Failure> {
        let count = self.few(most)?;
        self.entries(count, most, values::float)
    }

    fn few(&mut self, most: usize) -> Result<usize, Failure> {
        let count = self.whole()?;
        if count > most {
            return Err(self.malformed(format!("{count} announced, at most {most} may be")));
        }
        Ok(count)
    }

    /// That many entries, to the end of the line. All of them are read, and one more than `most` are
    /// held at most.
    fn entries<T>(
        &mut self,
        count: usize,
        most: usize,
        entry: fn(&[u8]) -> Result<T, String>,
    ) -> Result<Vec<T>, Failure> {
        let (mut entries, mut there) = (Vec::new(), 0);
        while let Some(word) = self.next()? {
            let value = entry(word);
            let value = value.map_err(|message| self.malformed(message))?;
            if there <= most {
                entries.push(value);
            }
            there += 1;
        }
        if there != count {
            return Err(self.malformed(format!("{count} announced, {there} there")));
        }
        Ok(entries)
    }

    /// A count of bytes and one word with two digits a byte; no word for no bytes. One byte more than
    /// `most` is held at most.
    pub fn bytes(&mut self, most: usize) -> Result<Vec<u8>, Failure> {
        let count: usize = self.whole()?;
        let mut hex = Hex::announced(count, most);
        let follows = self.open;
        while self.open {
            let there = self.input.fill_buf()?;
            if there.is_empty() {
                return Err(self.unfinished());
            }
            let digits = hex.take(there);
            let end = there.get(digits).copied();
            self.input
                .consume(digits + usize::from(end.is_some_and(ends_word)));
            match end {
                None => {}
                Some(b'\n') => self.open = false,
                Some(b' ') => break,
                Some(other) if !other.is_ascii() => return Err(self.not_ascii()),
                Some(other) => {
                    let message = format!("{} is not a lowercase hex digit", show(&[other]));
                    return Err(self.malformed(message));
                }
            }
        }
        if follows && hex.digits == 0 {
            return Err(self.malformed("fields are separated by single spaces"));
        }
        hex.whole().map_err(|message| self.malformed(message))
    }

    /// Nothing may follow.
    pub fn finish(&mut self) -> Result<(), Failure> {
        match self.next()? {
            None => Ok(()),
            Some(word) => {
                let message = format!("the line should end before {}", show(word));
                Err(self.malformed(message))
            }
        }
    }

    /// The failure at the line that is being read, or at the end of the input just behind the last.
    pub fn malformed(&self, message: impl Into<String>) -> Failure {
        Failure::Malformed {
            line: self.number,
            message: message.into(),
        }
    }

    fn unfinished(&self) -> Failure {
        self.malformed("the last line has no newline at its end")
    }

    fn not_ascii(&self) -> Failure {
        self.malformed("a byte that is not ASCII")
    }
}

fn ends_word(byte: u8) -> bool {
    matches!(byte, b' ' | b'\n')
}

/// A word as messages quote it: a long one is cut.
pub fn show(word: &[u8]) -> String {
    const MOST: usize = 40;
    match word.get(..MOST) {
        Some(start) if word.len() > MOST => format!("`{}..`", start.escape_ascii()),
        _ => format!("`{}`", word.escape_ascii()),
    }
}
