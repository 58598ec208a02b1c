//! What is said to whoever watches, on standard error where it is a terminal.

use std::io::{self, IsTerminal, Write};
use std::time::{Duration, Instant};

use crate::card;

/// More refusals than this are not explained.
const MOST_EXPLAINED: usize = 3;

/// A line that says how many texts are answered, where standard output is no terminal, so that it
/// stands in no one's way; and a word on the first texts that are refused.
pub struct Progress {
    watched: bool,
    counting: bool,
    /// When the count was last shown, and whether it ever was.
    since: Instant,
    shown: bool,
    explained: usize,
}

impl Progress {
    pub fn new() -> Self {
        let watched = io::stderr().is_terminal();
        Progress {
            watched,
            counting: watched && !io::stdout().is_terminal(),
            since: Instant::now(),
            shown: false,
            explained: 0,
        }
    }

    pub fn texts(&mut self, answered: usize) {
        if self.counting && self.since.elapsed() > Duration::from_millis(200) {
            let _ = write!(io::stderr(), "\rlanegravel: {answered} texts answered ");
            (self.shown, self.since) = (true, Instant::now());
        }
    }

    /// The text of this number misses the question of that one.
    pub fn refused(&mut self, text: usize, question: u32) {
        if self.watched && self.explained < MOST_EXPLAINED {
            self.end();
            let asks = card::numbered(question).map_or("", |entry| entry.asks);
            let (out, more) = (&mut io::stderr(), "--report says what to do");
            let _ = writeln!(out, "text {text} misses question {question}: {asks} {more}");
            self.explained += 1;
        }
    }

    /// Takes the count away.
    pub fn end(&mut self) {
        if self.shown {
            let _ = write!(io::stderr(), "\r{:40}\r", "");
            self.shown = false;
        }
    }
}
